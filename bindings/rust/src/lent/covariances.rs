//! Covariances of rows of two operators.

use super::{FactorLists, OperatorLists, ResultLists};
use crate::{Error, SelectedInverseDiagnostics};

/// Covariances of rows of two operators: fills `result` with the closed set of all columns of row `a_rows[k]` of `a`
/// with all columns of row `b_rows[k]` of `b`, and `output` with the covariance of each such row pair.
///
/// Refuses with 1, 2, 3, 18, 4, 9, 6, 7: with 1 also for more than [`MAX_ENTRIES`](crate::MAX_ENTRIES) row pairs,
/// counted by `a_rows`, with 4 for row pair lists of unequal length, with 9 for a row pair outside. `ClosureTooLarge`
/// leaves `result` and `output` as they were. A row pair costs the terms of the one row times those of the other, and
/// costs them again where it repeats.
///
/// ```
/// use redstartgilt::lent::{self, FactorLists, OperatorLists, ResultLists};
///
/// let factor = FactorLists { n: 2, starts: &[0, 2, 3], rows: &[0, 1, 1], values: &[1.0, 2.0, 1.0] };
/// // Cell 0, and the sum of both.
/// let a = OperatorLists { ncols: 2, row_starts: &[0, 1, 3], columns: &[0, 0, 1], weights: &[1.0; 3] };
/// // Cell 1.
/// let b = OperatorLists { ncols: 2, row_starts: &[0, 1], columns: &[1], weights: &[1.0] };
/// let (mut starts, mut rows, mut values) = ([0; 3], [0; 3], [0.0; 3]);
/// let (mut scratch, mut output) = ([0; 12], [0.0; 2]);
/// let result = ResultLists { starts: &mut starts, rows: &mut rows, values: &mut values };
/// lent::selected_inverse_transformed_covariances(
///     factor, a, b, &[0, 1], &[0, 0], result, &mut scratch, &mut output,
/// )?;
/// assert_eq!(output, [-2.0, -1.0]);
/// # Ok::<(), redstartgilt::Error>(())
/// ```
#[allow(clippy::too_many_arguments)]
pub fn selected_inverse_transformed_covariances(
    factor: FactorLists<'_>,
    a: OperatorLists<'_>,
    b: OperatorLists<'_>,
    a_rows: &[u32],
    b_rows: &[u32],
    result: ResultLists<'_>,
    scratch: &mut [u32],
    output: &mut [f64],
) -> Result<SelectedInverseDiagnostics, Error> {
    let reply = lend!(redstartgilt_selected_inverse_transformed_covariances:
        factor(factor) operator(a) operator(b) [a_rows] [b_rows] result(result) {scratch} {output});
    SelectedInverseDiagnostics::of_reply(reply).map_err(|error| factor.refused(error))
}

/// [`selected_inverse_transformed_covariances`] with a limit: a limit of all pairs is never passed.
///
/// ```
/// use redstartgilt::lent::{self, FactorLists, OperatorLists, ResultLists};
///
/// let factor = FactorLists { n: 2, starts: &[0, 2, 3], rows: &[0, 1, 1], values: &[1.0, 2.0, 1.0] };
/// // Cell 0, and the sum of both.
/// let a = OperatorLists { ncols: 2, row_starts: &[0, 1, 3], columns: &[0, 0, 1], weights: &[1.0; 3] };
/// // Cell 1.
/// let b = OperatorLists { ncols: 2, row_starts: &[0, 1], columns: &[1], weights: &[1.0] };
/// let (mut starts, mut rows, mut values) = ([0; 3], [0; 3], [0.0; 3]);
/// let (mut scratch, mut output) = ([0; 12], [0.0; 2]);
/// let result = ResultLists { starts: &mut starts, rows: &mut rows, values: &mut values };
/// lent::selected_inverse_transformed_covariances_with_limit(
///     factor, a, b, &[0, 1], &[0, 0], 3, result, &mut scratch, &mut output,
/// )?;
/// assert_eq!(output, [-2.0, -1.0]);
/// # Ok::<(), redstartgilt::Error>(())
/// ```
#[allow(clippy::too_many_arguments)]
pub fn selected_inverse_transformed_covariances_with_limit(
    factor: FactorLists<'_>,
    a: OperatorLists<'_>,
    b: OperatorLists<'_>,
    a_rows: &[u32],
    b_rows: &[u32],
    limit: usize,
    result: ResultLists<'_>,
    scratch: &mut [u32],
    output: &mut [f64],
) -> Result<SelectedInverseDiagnostics, Error> {
    let reply = lend!(redstartgilt_selected_inverse_transformed_covariances_with_limit:
        factor(factor) operator(a) operator(b) [a_rows] [b_rows] (limit) result(result) {scratch} {output});
    SelectedInverseDiagnostics::of_reply(reply).map_err(|error| factor.refused(error))
}
