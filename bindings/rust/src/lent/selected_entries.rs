//! Selected entries.

use super::{FactorLists, ResultLists};
use crate::{Error, SelectedInverseDiagnostics};

/// Selected entries: fills `result` with the closed set of the requests, column by column, rows ascending.
///
/// Refuses with 1, 2, 3, 18, 4, 5, 6, 7. Without a refusal `scratch` ends with its first
/// [`scratch_words`](super::scratch_words) words 0; `ClosureTooLarge` leaves `result` as it was.
pub fn selected_inverse_entries_with_limit(
    factor: FactorLists<'_>,
    dimension: usize,
    request_rows: &[u32],
    request_columns: &[u32],
    limit: usize,
    result: ResultLists<'_>,
    scratch: &mut [u32],
) -> Result<SelectedInverseDiagnostics, Error> {
    let reply = lend!(redstartgilt_selected_inverse_entries_with_limit:
        factor(factor) (dimension) [request_rows] [request_columns] (limit) result(result) {scratch});
    SelectedInverseDiagnostics::of_reply(reply).map_err(|error| factor.refused(error))
}

/// [`selected_inverse_entries_with_limit`] with the [`default_limit`](super::default_limit).
pub fn selected_inverse_entries(
    factor: FactorLists<'_>,
    dimension: usize,
    request_rows: &[u32],
    request_columns: &[u32],
    result: ResultLists<'_>,
    scratch: &mut [u32],
) -> Result<SelectedInverseDiagnostics, Error> {
    let reply = lend!(redstartgilt_selected_inverse_entries:
        factor(factor) (dimension) [request_rows] [request_columns] result(result) {scratch});
    SelectedInverseDiagnostics::of_reply(reply).map_err(|error| factor.refused(error))
}
