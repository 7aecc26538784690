//! Selected entries of a factor with pivots: the calls, and the factor's check.

use super::{FactorLists, ResultLists};
use crate::{Error, SelectedInverseDiagnostics};

/// Selected entries of a factor with pivots: fills `result` with entries of the inverse of L·D·Lᵀ, as
/// [`selected_inverse_entries_with_limit`](super::selected_inverse_entries_with_limit) does with those of L·Lᵀ. L has ones
/// on its diagonal, stored or not, and `pivots` is the diagonal D.
///
/// Refuses with 1, 2, 3, 18; with 4 for pivots that are not n and 18 for one that is not finite; with 4, 5; with 23 for a
/// diagonal other than 1, with 6 for a pivot at most 0.0, and 7. Without a refusal `scratch` ends with its first
/// [`scratch_words`](super::scratch_words) words 0; `ClosureTooLarge` leaves `result` as it was.
///
/// ```
/// use redstartgilt::lent::{self, FactorLists, ResultLists};
///
/// // (4, 8; 8, 17): L has 2 below its diagonal, and the pivots are 4 and 1.
/// let factor = FactorLists { n: 2, starts: &[0, 1, 1], rows: &[1], values: &[2.0] };
/// let (mut starts, mut rows, mut values) = ([0; 3], [0; 3], [0.0; 3]);
/// let mut scratch = [0; 12];
/// let result = ResultLists { starts: &mut starts, rows: &mut rows, values: &mut values };
/// let diagnostics = lent::selected_inverse_entries_ldl_with_limit(
///     factor, &[4.0, 1.0], 2, &[0], &[0], 3, result, &mut scratch,
/// )?;
/// assert!(diagnostics.is_complete());
/// assert_eq!(values, [4.25, -2.0, 1.0]);
/// // Each column counts its diagonal.
/// assert_eq!(diagnostics.factor_pairs, 3);
/// # Ok::<(), redstartgilt::Error>(())
/// ```
#[allow(clippy::too_many_arguments)]
pub fn selected_inverse_entries_ldl_with_limit(
    factor: FactorLists<'_>,
    pivots: &[f64],
    dimension: usize,
    request_rows: &[u32],
    request_columns: &[u32],
    limit: usize,
    result: ResultLists<'_>,
    scratch: &mut [u32],
) -> Result<SelectedInverseDiagnostics, Error> {
    let reply = lend!(redstartgilt_selected_inverse_entries_ldl_with_limit:
        factor(factor) [pivots] (dimension) [request_rows] [request_columns] (limit) result(result) {scratch});
    SelectedInverseDiagnostics::of_reply(reply).map_err(|error| factor.refused(error))
}

/// [`selected_inverse_entries_ldl_with_limit`] with the [`default_limit`](super::default_limit). Diagonals that are not
/// stored do not count in it.
pub fn selected_inverse_entries_ldl(
    factor: FactorLists<'_>,
    pivots: &[f64],
    dimension: usize,
    request_rows: &[u32],
    request_columns: &[u32],
    result: ResultLists<'_>,
    scratch: &mut [u32],
) -> Result<SelectedInverseDiagnostics, Error> {
    let reply = lend!(redstartgilt_selected_inverse_entries_ldl:
        factor(factor) [pivots] (dimension) [request_rows] [request_columns] result(result) {scratch});
    SelectedInverseDiagnostics::of_reply(reply).map_err(|error| factor.refused(error))
}

/// Whether a factor with pivots is one that the calls accept.
///
/// Refuses with 1, 2, 3, 18, and of the pivots with 4 and 18; then with 23 and 6.
///
/// ```
/// use redstartgilt::lent::{self, FactorLists};
/// use redstartgilt::Error;
///
/// let factor = FactorLists { n: 2, starts: &[0, 1, 1], rows: &[1], values: &[2.0] };
/// assert_eq!(lent::check_ldl_factor(factor, &[4.0, 1.0]), Ok(()));
/// assert_eq!(lent::check_ldl_factor(factor, &[4.0]), Err(Error::DimensionMismatch));
/// assert_eq!(lent::check_ldl_factor(factor, &[4.0, -0.0]), Err(Error::NonPositiveDefinite));
/// ```
pub fn check_ldl_factor(factor: FactorLists<'_>, pivots: &[f64]) -> Result<(), Error> {
    let result = ResultLists {
        starts: &mut [],
        rows: &mut [],
        values: &mut [],
    };
    // Past every check of the factor a call without a place for result starts is refused for that alone.
    match selected_inverse_entries_ldl_with_limit(factor, pivots, factor.n, &[], &[], 0, result, &mut []) {
        Err(Error::TooShort) => Ok(()),
        Err(error) => Err(error),
        Ok(_) => panic!("the linked library writes to a list without places"),
    }
}
