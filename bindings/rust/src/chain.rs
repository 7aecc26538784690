//! Why a pair is in the closed set.

use crate::lent;
use crate::{CholeskyFactor, Error, SparseSymmetricPattern, Workspace};

/// A chain from a requested pair to (row, column), which may be in either order: why the closed set of the requests has
/// that pair. `None` where it has not.
///
/// The pairs stand in order, from the requested one to the one asked for, each with row ≥ column and each a dependency of
/// the one before: (r, c) needs (r, d), put in order, for every entry (d, c) of the factor below its diagonal. No chain
/// has fewer pairs, and of those with as few it is the lowest by column then row, compared from the end. The chain of a
/// requested pair is that pair alone.
///
/// Requests, pair and chain are in the factor's order, as those of
/// [`selected_inverse_entries`](crate::selected_inverse_entries). No limit is applied, and no entry is computed; the cost
/// is that of the whole closed set. Refuses with [`Error::TooLarge`] above 1,048,576 requests, then with
/// [`Error::DimensionMismatch`], [`Error::RequestOutOfRange`] and [`Error::NonPositiveDefinite`], and last with
/// [`Error::RequestOutOfRange`] for an index of the pair outside.
///
/// ```
/// use redstartgilt::{dependency_chain, CholeskyFactor, SparseSymmetricPattern};
///
/// // The factor has no entry at (2, 1), and yet that pair is in the closed set of (0, 0).
/// let factor = CholeskyFactor::new(3, vec![0, 3, 4, 5], vec![0, 1, 2, 1, 2], vec![1.0, 2.0, 3.0, 1.0, 1.0])?;
/// let mut requested = SparseSymmetricPattern::new(3);
/// requested.insert(0, 0)?;
/// let chain = dependency_chain(&factor, &requested, 2, 1)?;
/// assert_eq!(chain, Some(vec![(0, 0), (1, 0), (2, 1)]));
///
/// // (1, 1) needs nothing but itself.
/// let mut requested = SparseSymmetricPattern::new(3);
/// requested.insert(1, 1)?;
/// assert_eq!(dependency_chain(&factor, &requested, 2, 1)?, None);
/// # Ok::<(), redstartgilt::Error>(())
/// ```
pub fn dependency_chain(
    factor: &CholeskyFactor,
    requested: &SparseSymmetricPattern,
    row: usize,
    column: usize,
) -> Result<Option<Vec<(usize, usize)>>, Error> {
    dependency_chain_in(factor, requested, row, column, &mut Workspace::new())
}

/// [`dependency_chain`] with memory that is used again.
pub fn dependency_chain_in(
    factor: &CholeskyFactor,
    requested: &SparseSymmetricPattern,
    row: usize,
    column: usize,
    workspace: &mut Workspace,
) -> Result<Option<Vec<(usize, usize)>>, Error> {
    let (request_rows, request_columns) = requested.request_lists();
    let (scratch, chain_rows, chain_columns) = workspace.lend_chain(factor.dimension());
    let pairs = lent::dependency_chain(
        factor.lists(),
        requested.dimension,
        &request_rows,
        &request_columns,
        row,
        column,
        scratch,
        chain_rows,
        chain_columns,
    )?;
    let chain = chain_rows.iter().zip(&*chain_columns).take(pairs);
    let chain = chain.map(|(row, column)| (*row as usize, *column as usize));
    Ok((pairs > 0).then(|| chain.collect()))
}
