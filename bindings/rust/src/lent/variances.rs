//! The diagonal in original order, and the variances of an operator's rows.

use super::{FactorLists, OperatorLists, ResultLists};
use crate::{Error, SelectedInverseDiagnostics};

/// The diagonal in original order: fills `result` with the closed set of all diagonals, and `output` with the diagonal
/// at `orig_to_perm[i]` in place i.
///
/// Refuses with 1, 2, 3, 18, 4, 10, 11, 6, 7, and with 8 where the closed set passes the
/// [`default_limit`](super::default_limit); `scratch` then ends 0 as after an answer.
pub fn selected_inverse_diag_with_diagnostics(
    factor: FactorLists<'_>,
    orig_to_perm: &[u32],
    result: ResultLists<'_>,
    scratch: &mut [u32],
    output: &mut [f64],
) -> Result<SelectedInverseDiagnostics, Error> {
    let reply = lend!(redstartgilt_selected_inverse_diag_with_diagnostics:
        factor(factor) [orig_to_perm] result(result) {scratch} {output});
    SelectedInverseDiagnostics::of_reply(reply).map_err(|error| factor.refused(error))
}

/// [`selected_inverse_diag_with_diagnostics`] with a limit, past which it refuses with 8.
pub fn selected_inverse_diag_with_limit(
    factor: FactorLists<'_>,
    orig_to_perm: &[u32],
    limit: usize,
    result: ResultLists<'_>,
    scratch: &mut [u32],
    output: &mut [f64],
) -> Result<SelectedInverseDiagnostics, Error> {
    let reply = lend!(redstartgilt_selected_inverse_diag_with_limit:
        factor(factor) [orig_to_perm] (limit) result(result) {scratch} {output});
    SelectedInverseDiagnostics::of_reply(reply).map_err(|error| factor.refused(error))
}

/// Operator variances: fills `result` with the closed set of all column pairs of each operator row, and `output` with
/// the variance of each row.
///
/// Refuses with 1, 2, 3, 18, 4, 9, 6, 7. `ClosureTooLarge` leaves `result` and `output` as they were.
pub fn selected_inverse_transformed_diag(
    factor: FactorLists<'_>,
    operator: OperatorLists<'_>,
    result: ResultLists<'_>,
    scratch: &mut [u32],
    output: &mut [f64],
) -> Result<SelectedInverseDiagnostics, Error> {
    let reply = lend!(redstartgilt_selected_inverse_transformed_diag:
        factor(factor) operator(operator) result(result) {scratch} {output});
    SelectedInverseDiagnostics::of_reply(reply).map_err(|error| factor.refused(error))
}

/// [`selected_inverse_transformed_diag`] with a limit: a limit of all pairs is never passed.
///
/// ```
/// use redstartgilt::lent::{self, FactorLists, OperatorLists, ResultLists};
///
/// let factor = FactorLists { n: 2, starts: &[0, 2, 3], rows: &[0, 1, 1], values: &[1.0, 2.0, 1.0] };
/// let sum = OperatorLists { ncols: 2, row_starts: &[0, 2], columns: &[0, 1], weights: &[1.0; 2] };
/// let (mut starts, mut rows, mut values) = ([0; 3], [0; 3], [0.0; 3]);
/// let (mut scratch, mut output) = ([0; 12], [0.0]);
/// let result = ResultLists { starts: &mut starts, rows: &mut rows, values: &mut values };
/// lent::selected_inverse_transformed_diag_with_limit(factor, sum, 3, result, &mut scratch, &mut output)?;
/// assert_eq!(output, [2.0]);
/// # Ok::<(), redstartgilt::Error>(())
/// ```
pub fn selected_inverse_transformed_diag_with_limit(
    factor: FactorLists<'_>,
    operator: OperatorLists<'_>,
    limit: usize,
    result: ResultLists<'_>,
    scratch: &mut [u32],
    output: &mut [f64],
) -> Result<SelectedInverseDiagnostics, Error> {
    let reply = lend!(redstartgilt_selected_inverse_transformed_diag_with_limit:
        factor(factor) operator(operator) (limit) result(result) {scratch} {output});
    SelectedInverseDiagnostics::of_reply(reply).map_err(|error| factor.refused(error))
}
