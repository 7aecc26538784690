//! Selected entries in whole numbers: the calls, a factor's check, and the lookup in a result.

use super::{EntryLists, FactorLists, ResultLists};
use crate::{Error, SelectedInverseDiagnostics};

/// Selected entries in whole numbers, for a factor with ones on its diagonal: exact, or refused where a number is too
/// large for that. Set, counts, starts and rows are those of
/// [`selected_inverse_entries_with_limit`](super::selected_inverse_entries_with_limit).
///
/// `work` needs [`result_places`](super::result_places) places. Refuses with 1, 2, 3, 4, 5; with 19 for a diagonal other
/// than 1, 6 for a column without one, and 7; and with 20 where the closed set is within the limit and an entry of the
/// factor, or a product, running sum or entry of the recurrence, is beyond 2^53 in size. 20 and `ClosureTooLarge` leave
/// `result` as it was; without a refusal, and after 20, `scratch` and `work` end 0 in the lengths that they need.
///
/// ```
/// use redstartgilt::lent::{self, EntryLists, FactorLists, ResultLists};
///
/// let factor = FactorLists { n: 2, starts: &[0, 2, 3], rows: &[0, 1, 1], values: &[1, -3, 1] };
/// let (mut starts, mut rows, mut values) = ([0; 3], [0; 3], [0; 3]);
/// let (mut scratch, mut work) = ([0; 12], [0; 3]);
/// let result = ResultLists { starts: &mut starts, rows: &mut rows, values: &mut values };
/// let diagnostics = lent::selected_inverse_entries_whole_with_limit(
///     factor, 2, &[0], &[0], 3, result, &mut scratch, &mut work,
/// )?;
/// assert!(diagnostics.is_complete());
/// assert_eq!(values, [10, 3, 1]);
///
/// let entries = EntryLists { starts: &starts, rows: &rows, values: &values };
/// assert_eq!(lent::get_whole(entries, 0, 1)?, 3);
/// # Ok::<(), redstartgilt::Error>(())
/// ```
#[allow(clippy::too_many_arguments)]
pub fn selected_inverse_entries_whole_with_limit(
    factor: FactorLists<'_, i64>,
    dimension: usize,
    request_rows: &[u32],
    request_columns: &[u32],
    limit: usize,
    result: ResultLists<'_, i64>,
    scratch: &mut [u32],
    work: &mut [i64],
) -> Result<SelectedInverseDiagnostics, Error> {
    let reply = lend!(redstartgilt_selected_inverse_entries_whole_with_limit:
        factor(factor) (dimension) [request_rows] [request_columns] (limit) result(result) {scratch} {work});
    SelectedInverseDiagnostics::of_reply(reply)
}

/// [`selected_inverse_entries_whole_with_limit`] with the [`default_limit`](super::default_limit).
pub fn selected_inverse_entries_whole(
    factor: FactorLists<'_, i64>,
    dimension: usize,
    request_rows: &[u32],
    request_columns: &[u32],
    result: ResultLists<'_, i64>,
    scratch: &mut [u32],
    work: &mut [i64],
) -> Result<SelectedInverseDiagnostics, Error> {
    let reply = lend!(redstartgilt_selected_inverse_entries_whole:
        factor(factor) (dimension) [request_rows] [request_columns] result(result) {scratch} {work});
    SelectedInverseDiagnostics::of_reply(reply)
}

/// Whether the lists of a factor of whole numbers are well formed.
///
/// Refuses with 1, 2, 3. A factor that it accepts may still be refused with 19, 6 or 20 by the calls.
///
/// ```
/// use redstartgilt::lent::{self, FactorLists};
/// use redstartgilt::Error;
///
/// let factor = FactorLists { n: 2, starts: &[0, 2, 3], rows: &[0, 1, 1], values: &[1, -3, 1] };
/// assert_eq!(lent::check_whole_factor(factor), Ok(()));
/// let falling = FactorLists { rows: &[1, 0, 1], ..factor };
/// assert_eq!(lent::check_whole_factor(falling), Err(Error::BrokenRows));
/// ```
pub fn check_whole_factor(factor: FactorLists<'_, i64>) -> Result<(), Error> {
    Error::check(lend!(redstartgilt_check_whole_factor: factor(factor)))
}

/// The entry at (row, column), which may be exchanged, of a result of whole numbers.
///
/// Refuses as [`get`](super::get) does. It reads every row of the column.
pub fn get_whole(entries: EntryLists<'_, i64>, row: usize, column: usize) -> Result<i64, Error> {
    let reply = lend!(redstartgilt_get_whole: entries(entries) (row) (column));
    Error::check(reply.refusal)?;
    Ok(reply.value)
}
