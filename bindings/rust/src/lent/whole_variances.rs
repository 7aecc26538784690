//! Variances over a result of whole numbers: bounds of a row whose weights are known within ranges, and the runs
//! of a track.

use super::EntryLists;
use crate::{Error, VarianceBounds};

/// Bounds on the variance of the row in which the weight of the cell `columns[a]` is from `lows[a]` to `highs[a]`.
///
/// Refuses with 2 and 3 as [`check_result`](super::check_result); with 9 for lists of unequal length, and for a column
/// that is outside or listed twice; with 21 for more than 64 terms, an end beyond 1,024 in size, and a low end above its
/// high end; with 8 for a pair of the columns that is absent; and with 20 for an entry of theirs beyond 2^30 in size. What
/// the bounds are is told at [`VarianceBounds`].
///
/// ```
/// use redstartgilt::lent::{self, EntryLists};
///
/// // The inverse (10, 3; 3, 1): ten times 0 to 4, twice 3 times -1 to 2, and 1.
/// let entries = EntryLists { starts: &[0, 2, 3], rows: &[0, 1, 1], values: &[10, 3, 1] };
/// let bounds = lent::variance_bounds_whole(entries, &[0, 1], &[-1, 1], &[2, 1])?;
/// assert_eq!((bounds.low, bounds.high), (-5, 53));
/// # Ok::<(), redstartgilt::Error>(())
/// ```
pub fn variance_bounds_whole(
    entries: EntryLists<'_, i64>,
    columns: &[u32],
    lows: &[i64],
    highs: &[i64],
) -> Result<VarianceBounds, Error> {
    let reply = lend!(redstartgilt_variance_bounds_whole: entries(entries) [columns] [lows] [highs]);
    Error::check(reply.refusal)?;
    Ok(VarianceBounds {
        low: reply.low,
        high: reply.high,
    })
}

/// The variance of each run of `width` consecutive cells along a track: `output[i]` is that of the sum of the cells
/// `track[i]` to `track[i + width - 1]`. A cell that is listed twice counts twice.
///
/// `output` needs a place for each run, [`track_runs`](super::track_runs). Refuses with 2 and 3 as
/// [`check_result`](super::check_result); with 22 for a width of 0, above 1,024 or above the track's length; with 8 for a
/// pair of cells of one run that is absent, as it is for a cell outside; with 20 for an entry of some run beyond 2^40 in
/// size; and with 7. Each is told of the whole track before the next, and `output` is then as it was.
///
/// ```
/// use redstartgilt::lent::{self, EntryLists};
///
/// // The inverse (10, 3; 3, 1).
/// let entries = EntryLists { starts: &[0, 2, 3], rows: &[0, 1, 1], values: &[10, 3, 1] };
/// let mut output = [0; 2];
/// lent::track_variances_whole(entries, &[0, 1, 1], 2, &mut output)?;
/// assert_eq!(output, [17, 4]);
/// # Ok::<(), redstartgilt::Error>(())
/// ```
pub fn track_variances_whole(
    entries: EntryLists<'_, i64>,
    track: &[u32],
    width: usize,
    output: &mut [i64],
) -> Result<(), Error> {
    Error::check(lend!(redstartgilt_track_variances_whole: entries(entries) [track] (width) {output}))
}
