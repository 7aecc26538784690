//! A factor's check.

use super::FactorLists;
use crate::Error;

/// Whether a factor's lists are well formed and its kept entries finite, which every call with a factor checks first.
///
/// Refuses with 1, 2, 3, 18. A factor that it accepts may still be refused with 6 by a call that needs the diagonal of
/// each column.
///
/// ```
/// use redstartgilt::lent::{self, FactorLists};
/// use redstartgilt::Error;
///
/// let factor = FactorLists { n: 2, starts: &[0, 2, 3], rows: &[0, 1, 1], values: &[1.0, 2.0, 1.0] };
/// assert_eq!(lent::check_factor(factor), Ok(()));
/// let falling = FactorLists { rows: &[1, 0, 1], ..factor };
/// assert_eq!(lent::check_factor(falling), Err(Error::BrokenRows));
/// let infinite = FactorLists { values: &[1.0, f64::INFINITY, 1.0], ..factor };
/// assert_eq!(lent::check_factor(infinite), Err(Error::NotFiniteEntry(Some((1, 0)))));
/// ```
pub fn check_factor(factor: FactorLists<'_>) -> Result<(), Error> {
    let refusal = lend!(redstartgilt_check_factor: factor(factor));
    Error::check(refusal).map_err(|error| factor.refused(error))
}
