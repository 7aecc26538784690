//! The lists of a factor, of an operator, of a result to be filled and of one to be read.

use crate::Error;

/// The numbers of a factor or of a result: `f64`, and `i64` for the calls in whole numbers. No other type has it.
pub trait Number: Copy + Default + PartialEq + sealed::EightBytes {}

impl Number for f64 {}
impl Number for i64 {}

mod sealed {
    pub trait EightBytes {}
    impl EightBytes for f64 {}
    impl EightBytes for i64 {}
}

/// A factor of dimension n in compressed columns: n + 1 starts, then each column's row indices, ascending, and values.
#[derive(Debug, Clone, Copy)]
pub struct FactorLists<'a, V = f64> {
    /// The dimension.
    pub n: usize,
    /// Where each column starts in `rows`, and last their number.
    pub starts: &'a [u32],
    /// Row indices, column by column, ascending.
    pub rows: &'a [u32],
    /// The value of each row.
    pub values: &'a [V],
}

impl<'a, V: Number + 'a> FactorLists<'a, V> {
    /// The entries (row, column, value) that are kept, by column then row, of lists that pass 2 and 3.
    pub(crate) fn kept(self) -> impl Iterator<Item = (usize, usize, V)> + 'a {
        let columns = self.starts.windows(2).enumerate();
        let entries = columns.flat_map(move |(column, ends)| {
            let places = ends[0] as usize..ends[1] as usize;
            places.map(move |place| (self.rows[place] as usize, column, self.values[place]))
        });
        entries.filter(|(row, column, value)| row >= column && *value != V::default())
    }
}

impl FactorLists<'_> {
    /// The refusal of a call that was lent this factor, with the entry that 18 is about. It is looked for here, after
    /// the refusal, which says that the lists pass 2 and 3.
    pub(super) fn refused(self, error: Error) -> Error {
        if !matches!(error, Error::NotFiniteEntry(_)) {
            return error;
        }
        let mut kept = self.kept();
        let found = kept.find(|(_, _, value)| !value.is_finite());
        Error::NotFiniteEntry(found.map(|(row, column, _)| (row, column)))
    }
}

/// An operator in compressed rows, its columns in factor order.
#[derive(Debug, Clone, Copy)]
pub struct OperatorLists<'a> {
    /// The number of its columns.
    pub ncols: usize,
    /// Where each row starts in `columns`, and last their number.
    pub row_starts: &'a [u32],
    /// Column indices, row by row.
    pub columns: &'a [u32],
    /// The weight of each column.
    pub weights: &'a [f64],
}

/// The lists that entries are written to, in the layout of a factor.
#[derive(Debug)]
pub struct ResultLists<'a, V = f64> {
    /// At least n + 1 places.
    pub starts: &'a mut [u32],
    /// At least [`result_places`](super::result_places) places.
    pub rows: &'a mut [u32],
    /// At least [`result_places`](super::result_places) places.
    pub values: &'a mut [V],
}

/// Entries to be read. The dimension is the number of starts less one, so lend only the filled starts.
#[derive(Debug, Clone, Copy)]
pub struct EntryLists<'a, V = f64> {
    /// Where each column starts in `rows`, and last their number.
    pub starts: &'a [u32],
    /// Row indices, column by column, ascending.
    pub rows: &'a [u32],
    /// The value of each row.
    pub values: &'a [V],
}
