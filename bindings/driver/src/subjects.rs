//! What a call is given, by subject: a struct for each, with its parts by name. A new kind of call adds its own.

use crate::list::{Item, List};

/// A number or a list of one of the types of the C interface.
pub enum Part<'a> {
    Count(usize),
    Float(f64),
    Bytes(&'a List<u8>),
    Words(&'a List<u32>),
    Wholes(&'a List<i64>),
    Floats(&'a List<f64>),
}

impl From<&usize> for Part<'_> {
    fn from(count: &usize) -> Self {
        Part::Count(*count)
    }
}

impl From<&f64> for Part<'_> {
    fn from(float: &f64) -> Self {
        Part::Float(*float)
    }
}

impl<'a, T: Item> From<&'a List<T>> for Part<'a> {
    fn from(list: &'a List<T>) -> Self {
        T::part(list)
    }
}

/// The struct of a subject, and its parts by name; values of type V are floats where nothing is said.
macro_rules! subject {
    ($(#[$about:meta])* $name:ident $(<$value:ident>)? { $($part:ident: $kind:ty),* }) => {
        $(#[$about])*
        #[derive(Clone, Default)]
        pub struct $name $(<$value = f64>)? {
            $(pub $part: $kind,)*
        }

        impl $(<$value: Item>)? $name $(<$value>)? {
            pub fn parts(&self) -> Vec<(&'static str, Part<'_>)> {
                vec![$((stringify!($part), Part::from(&self.$part)),)*]
            }
        }
    };
}

subject! {
    /// A factor of dimension n.
    FactorLists<V> { n: usize, starts: List<u32>, rows: List<u32>, values: List<V> }
}

subject! {
    /// Requests that are read.
    RequestLists { dimension: usize, rows: List<u32>, columns: List<u32> }
}

subject! {
    /// An operator.
    OperatorLists { ncols: usize, row_starts: List<u32>, columns: List<u32>, weights: List<f64> }
}

subject! {
    /// Pairs of a row of operator A and one of operator B.
    RowPairLists { a_rows: List<u32>, b_rows: List<u32> }
}

subject! {
    /// A result that is read.
    EntryLists<V> { starts: List<u32>, rows: List<u32>, values: List<V> }
}

subject! {
    /// The pair that is looked up, or whose chain is asked for.
    Pair { row: usize, column: usize }
}

subject! {
    /// A row whose weights are known within ranges.
    RangeLists { columns: List<u32>, lows: List<i64>, highs: List<i64> }
}

subject! {
    /// The cells of a track, and the width of its runs.
    TrackLists { cells: List<u32>, width: usize }
}

subject! {
    /// A permutation, and its inverse: read by `validate`, written by `from_orig_to_perm`.
    PermutationLists { orig_to_perm: List<u32>, perm_to_orig: List<u32> }
}

subject! {
    /// Values to reorder, with their marks, to floor or to count; the scale is that of the floor.
    ValueLists { input: List<f64>, marks: List<u8>, scale: f64 }
}

subject! {
    /// The lists that entries are written to.
    ResultLists<V> { starts: List<u32>, rows: List<u32>, values: List<V> }
}

subject! {
    /// The lists that pairs are written to: those of a pattern list, of a chain or of a file.
    PairLists { rows: List<u32>, columns: List<u32> }
}

subject! {
    /// The lists that values are written to, floats or whole numbers, and their marks.
    OutputLists { values: List<f64>, wholes: List<i64>, marks: List<u8> }
}

impl OperatorLists {
    /// The number of its rows.
    pub fn rows(&self) -> usize {
        self.row_starts.len().saturating_sub(1)
    }

    /// The places of a row's terms.
    pub fn terms(&self, row: usize) -> std::ops::Range<usize> {
        self.row_starts[row] as usize..self.row_starts[row + 1] as usize
    }
}

impl<V: Item> EntryLists<V> {
    /// The number of its columns.
    pub fn dimension(&self) -> usize {
        self.starts.len().saturating_sub(1)
    }

    /// The places of a column's entries.
    pub fn column(&self, column: usize) -> std::ops::Range<usize> {
        self.starts[column] as usize..self.starts[column + 1] as usize
    }
}

impl TrackLists {
    /// The number of its runs, 0 where the width is none.
    pub fn runs(&self) -> usize {
        if self.width == 0 {
            return 0;
        }
        (self.cells.len() + 1).saturating_sub(self.width)
    }
}

impl Pair {
    /// Row and column, exchanged if row < column.
    pub fn ordered(&self) -> (usize, usize) {
        (self.row.max(self.column), self.row.min(self.column))
    }
}
