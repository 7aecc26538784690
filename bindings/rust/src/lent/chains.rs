//! The chain to a pair of the closed set.

use super::FactorLists;
use crate::Error;

/// Writes the chain from a requested pair to (row, column), which may be exchanged, and gives the number of its pairs:
/// 0 where the pair is not in the closed set of the requests.
///
/// Each pair is a dependency of the one before. No chain has fewer pairs, and of those with as few it is the lowest by
/// column then row, compared from the end. No limit is applied.
///
/// Refuses with 1, 2, 3, 18, 4, 5, 6, with 7 for scratch below [`chain_words`](super::chain_words), with 5 for an index
/// of the pair outside, and last with 7 for a list shorter than the chain; [`chain_places`](super::chain_places)
/// suffices. Without a refusal, and at the last 7, the first `chain_words` words of `scratch` end 0. The chain lists
/// are as they were where the pair is not in the set, whatever their length.
///
/// ```
/// use redstartgilt::lent::{self, FactorLists};
///
/// let factor = FactorLists { n: 3, starts: &[0, 3, 4, 5], rows: &[0, 1, 2, 1, 2], values: &[1.0, 2.0, 3.0, 1.0, 1.0] };
/// let mut scratch = [7; 25];
/// assert_eq!(lent::chain_words(3), 24);
/// let (mut rows, mut columns) = ([7; 4], [7; 4]);
/// let pairs = lent::dependency_chain(factor, 3, &[0], &[0], 1, 2, &mut scratch, &mut rows, &mut columns)?;
/// assert_eq!(pairs, 3);
/// assert_eq!((rows, columns), ([0, 1, 2, 7], [0, 0, 1, 7]));
/// assert_eq!((&scratch[..24], scratch[24]), (&[0; 24][..], 7));
///
/// // With (1, 1) requested (2, 1) is not in the set.
/// let pairs = lent::dependency_chain(factor, 3, &[1], &[1], 2, 1, &mut scratch, &mut [], &mut [])?;
/// assert_eq!(pairs, 0);
/// # Ok::<(), redstartgilt::Error>(())
/// ```
#[allow(clippy::too_many_arguments)]
pub fn dependency_chain(
    factor: FactorLists<'_>,
    dimension: usize,
    request_rows: &[u32],
    request_columns: &[u32],
    row: usize,
    column: usize,
    scratch: &mut [u32],
    chain_rows: &mut [u32],
    chain_columns: &mut [u32],
) -> Result<usize, Error> {
    let reply = lend!(redstartgilt_dependency_chain:
        factor(factor) (dimension) [request_rows] [request_columns] (row) (column) {scratch} {chain_rows} {chain_columns});
    Error::check(reply.refusal).map_err(|error| factor.refused(error))?;
    Ok(reply.pairs)
}
