//! Pattern lists: the pairs of a factor and of an operator.

use super::{FactorLists, OperatorLists};
use crate::Error;

/// Writes the pairs of the factor's kept entries, ascending by row then column, and gives their number.
///
/// Refuses with 1, 2, 3, 18, then with 7 for scratch below [`mark_words`](super::mark_words) or a short output. Past the
/// others and with scratch long enough, its first `mark_words` words end 0, also when an output is short.
pub fn from_cholesky_factor(
    factor: FactorLists<'_>,
    scratch: &mut [u32],
    pair_rows: &mut [u32],
    pair_columns: &mut [u32],
) -> Result<usize, Error> {
    let reply = lend!(redstartgilt_from_cholesky_factor: factor(factor) {scratch} {pair_rows} {pair_columns});
    Error::check(reply.refusal).map_err(|error| factor.refused(error))?;
    Ok(reply.pairs)
}

/// Writes all column pairs of each operator row, ascending by row then column, and gives their number.
///
/// Refuses with 1, 9, then with 7 as [`from_cholesky_factor`] does.
pub fn from_transformed_operator(
    operator: OperatorLists<'_>,
    scratch: &mut [u32],
    pair_rows: &mut [u32],
    pair_columns: &mut [u32],
) -> Result<usize, Error> {
    let reply = lend!(redstartgilt_from_transformed_operator: operator(operator) {scratch} {pair_rows} {pair_columns});
    Error::check(reply.refusal)?;
    Ok(reply.pairs)
}
