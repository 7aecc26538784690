//! Operators whose rows are weighted sums of cells.

use crate::index::word;
use crate::lent::{self, OperatorLists};
use crate::{CholeskyFactor, Error, Permutation};

/// An operator whose rows are sparse weighted sums of cells.
///
/// Weights are not looked at: one that is not finite gives a variance that is not finite.
///
/// ```
/// use redstartgilt::{Error, SparseRowOperator};
///
/// let mean_of_two = SparseRowOperator::new(3, vec![vec![(0, 0.5), (1, 0.5)]])?;
/// assert_eq!(mean_of_two.nrows(), 1);
/// assert_eq!(SparseRowOperator::new(3, vec![vec![(3, 1.0)]]), Err(Error::BrokenOperator));
/// # Ok::<(), redstartgilt::Error>(())
/// ```
#[derive(Debug, Clone, PartialEq)]
pub struct SparseRowOperator {
    /// The number of cells.
    pub ncols: usize,
    /// Each row's terms: a cell and its weight. A cell may come twice, and then counts twice.
    pub rows: Vec<Vec<(usize, f64)>>,
}

impl SparseRowOperator {
    /// An operator from its rows.
    ///
    /// Refuses with [`Error::TooLarge`], then with [`Error::BrokenOperator`] for a cell of `ncols` or more, by the
    /// library's own checks.
    pub fn new(ncols: usize, rows: Vec<Vec<(usize, f64)>>) -> Result<Self, Error> {
        let operator = Self { ncols, rows };
        operator.compressed().check()?;
        Ok(operator)
    }

    /// The operator whose row i is cell i.
    pub fn identity(size: usize) -> Self {
        Self {
            ncols: size,
            rows: (0..size).map(|cell| vec![(cell, 1.0)]).collect(),
        }
    }

    /// The number of rows.
    pub fn nrows(&self) -> usize {
        self.rows.len()
    }

    /// The operator with its cells moved from original order to factor order.
    ///
    /// Refuses a permutation of another dimension with [`Error::DimensionMismatch`], then as [`new`](Self::new) does.
    ///
    /// ```
    /// use redstartgilt::{Permutation, SparseRowOperator};
    ///
    /// let operator = SparseRowOperator::new(3, vec![vec![(0, 1.0), (1, 2.0)]])?;
    /// let moved = operator.permute_columns_to_factor(&Permutation::from_orig_to_perm(vec![2, 0, 1])?)?;
    /// assert_eq!(moved.rows, [[(2, 1.0), (0, 2.0)]]);
    /// # Ok::<(), redstartgilt::Error>(())
    /// ```
    pub fn permute_columns_to_factor(&self, permutation: &Permutation) -> Result<Self, Error> {
        if permutation.dimension() != self.ncols {
            return Err(Error::DimensionMismatch);
        }
        // A cell outside stays outside, for the check to refuse.
        let place = |cell: usize| permutation.orig_to_perm.get(cell).copied().unwrap_or(usize::MAX);
        let moved = |row: &Vec<(usize, f64)>| row.iter().map(|(cell, weight)| (place(*cell), *weight)).collect();
        Self::new(self.ncols, self.rows.iter().map(moved).collect())
    }

    pub(crate) fn compressed(&self) -> CompressedRows {
        self.compressed_at(|cell| cell)
    }

    /// The rows with their cells in the factor's order, unchecked: what is wrong with them is left for the call to
    /// refuse. An operator of another dimension stays as it is.
    pub(crate) fn compressed_for(&self, factor: &CholeskyFactor) -> CompressedRows {
        if !factor.is_permuted() || self.ncols != factor.dimension() {
            return self.compressed();
        }
        let order = factor.order();
        self.compressed_at(|cell| order.get(cell).map_or(usize::MAX, |place| *place as usize))
    }

    fn compressed_at(&self, place: impl Fn(usize) -> usize) -> CompressedRows {
        let mut compressed = CompressedRows {
            ncols: self.ncols,
            row_starts: vec![0],
            columns: Vec::new(),
            weights: Vec::new(),
        };
        for row in &self.rows {
            for (cell, weight) in row {
                compressed.columns.push(word(place(*cell)));
                compressed.weights.push(*weight);
            }
            compressed.row_starts.push(word(compressed.columns.len()));
        }
        compressed
    }
}

/// An operator's rows one after another.
pub(crate) struct CompressedRows {
    ncols: usize,
    row_starts: Vec<u32>,
    columns: Vec<u32>,
    weights: Vec<f64>,
}

impl CompressedRows {
    pub(crate) fn lists(&self) -> OperatorLists<'_> {
        OperatorLists {
            ncols: self.ncols,
            row_starts: &self.row_starts,
            columns: &self.columns,
            weights: &self.weights,
        }
    }

    pub(crate) fn check(&self) -> Result<(), Error> {
        // The pattern list checks the operator first and its scratch, which is short on purpose, after it.
        match lent::from_transformed_operator(self.lists(), &mut [], &mut [], &mut []) {
            Ok(_) | Err(Error::TooShort) => Ok(()),
            Err(error) => Err(error),
        }
    }
}
