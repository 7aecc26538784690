//! Variances over exact entries: bounds of a row whose weights are known within ranges, and the runs of a track.

use crate::index::{word, words};
use crate::{lent, Error, WholeSelectedInverse};

/// Bounds on the variance of a row whose weights are known within ranges.
///
/// Every choice of weights within the ranges, fractions too, has its variance from `low` to `high`. The bounds need not be
/// the variance of one choice: they are sums over the ordered pairs of cells, of the least and of the greatest value that
/// each term weight·weight·entry can have by itself. So `low` may be less than the least variance, and also less than 0,
/// and `high` more than the greatest. Equal ends give the exact variance twice.
#[derive(Debug, Clone, Copy, PartialEq, Eq)]
pub struct VarianceBounds {
    /// No variance is less.
    pub low: i64,
    /// No variance is greater.
    pub high: i64,
}

impl WholeSelectedInverse {
    /// Bounds on the variance of a row whose weights are known within ranges: each cell of the row, in the factor's order,
    /// with the low and the high end of its weight. A row without cells has the bounds 0 and 0.
    ///
    /// Refuses with [`Error::BrokenOperator`] for a cell that is outside or listed twice; with [`Error::BadWeights`] for
    /// more than 64 cells, an end beyond 1,024 in size, and a low end above its high end; with [`Error::NotCovered`] for a
    /// pair of the row's cells that is not in the closed set; and with [`Error::NumberTooLarge`] for an entry of theirs
    /// beyond 2^30 in size.
    ///
    /// ```
    /// use redstartgilt::{selected_inverse_entries_whole, SparseSymmetricPattern, VarianceBounds, WholeFactor};
    ///
    /// // The inverse is (10, 3; 3, 1).
    /// let factor = WholeFactor::new(2, vec![0, 2, 3], vec![0, 1, 1], vec![1, -3, 1])?;
    /// let selected = selected_inverse_entries_whole(&factor, &SparseSymmetricPattern::diagonal(2))?;
    /// let inverse = selected.inverse.unwrap();
    ///
    /// // Cell 0 minus cell 1: 10 - 3 - 3 + 1.
    /// let exact = inverse.variance_bounds(&[(0, 1, 1), (1, -1, -1)])?;
    /// assert_eq!(exact, VarianceBounds { low: 5, high: 5 });
    /// // 10 times 0 to 4, twice 3 times -1 to 2, and 1. No weight of cell 0 has a variance below 0.
    /// let bounds = inverse.variance_bounds(&[(0, -1, 2), (1, 1, 1)])?;
    /// assert_eq!(bounds, VarianceBounds { low: -5, high: 53 });
    /// # Ok::<(), redstartgilt::Error>(())
    /// ```
    pub fn variance_bounds(&self, ranges: &[(usize, i64, i64)]) -> Result<VarianceBounds, Error> {
        let columns = ranges.iter().map(|(cell, _, _)| word(*cell)).collect::<Vec<_>>();
        let lows = ranges.iter().map(|(_, low, _)| *low).collect::<Vec<_>>();
        let highs = ranges.iter().map(|(_, _, high)| *high).collect::<Vec<_>>();
        lent::variance_bounds_whole(self.lists(), &columns, &lows, &highs)
    }
    /// The variance of each run of `width` consecutive cells along a track, such as a fairway: the first is that of the sum
    /// of the track's first `width` cells, the last that of its last. Cells are in the factor's order; one that is listed
    /// twice counts twice. The track may be of any length.
    ///
    /// Refuses with [`Error::BadWidth`] for a width of 0, above 1,024 or above the track's length; with
    /// [`Error::NotCovered`] for a pair of cells of one run that is not in the closed set, as it is for a cell outside; and
    /// with [`Error::NumberTooLarge`] for an entry of some run beyond 2^40 in size.
    ///
    /// ```
    /// use redstartgilt::{selected_inverse_entries_whole, SparseSymmetricPattern, WholeFactor};
    ///
    /// // The inverse is (10, 3; 3, 1).
    /// let factor = WholeFactor::new(2, vec![0, 2, 3], vec![0, 1, 1], vec![1, -3, 1])?;
    /// let selected = selected_inverse_entries_whole(&factor, &SparseSymmetricPattern::diagonal(2))?;
    /// let inverse = selected.inverse.unwrap();
    ///
    /// // 10 + 3 + 3 + 1, then four times 1.
    /// assert_eq!(inverse.track_variances(&[0, 1, 1], 2)?, [17, 4]);
    /// # Ok::<(), redstartgilt::Error>(())
    /// ```
    pub fn track_variances(&self, track: &[usize], width: usize) -> Result<Vec<i64>, Error> {
        let mut output = vec![0; lent::track_runs(track.len(), width)];
        lent::track_variances_whole(self.lists(), &words(track), width, &mut output)?;
        Ok(output)
    }
}
