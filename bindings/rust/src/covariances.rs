//! Covariances of rows of two operators.

use crate::index::word;
use crate::lent::{self, default_limit};
use crate::{CholeskyFactor, Error, SelectedInverseDiagnostics, SparseRowOperator, Workspace};

/// The covariances of row pairs, with status and counts.
#[derive(Debug, Clone, PartialEq)]
pub struct SelectedInverseTransformedCovariances {
    /// The covariance of each row pair; `None` where the closed set passes the limit.
    pub covariances: Option<Vec<f64>>,
    /// Status and counts.
    pub diagnostics: SelectedInverseDiagnostics,
}

impl SelectedInverseTransformedCovariances {
    fn of_values(covariances: Vec<f64>, diagnostics: SelectedInverseDiagnostics) -> Self {
        Self {
            covariances: diagnostics.is_complete().then_some(covariances),
            diagnostics,
        }
    }
}

/// The covariances of rows of `a` with rows of `b`, with status and counts; the operators' cells are in original order.
///
/// A row pair is a row of `a` and a row of `b`, each counted from 0; it may repeat, and each has its own covariance.
/// Both operators may be the same, and a row with itself gives its variance. Only the entries that the row pairs need
/// are computed: those at each cell of the one row with each cell of the other, and what the recurrence needs for them.
/// A row pair costs the terms of the one row times those of the other.
///
/// The limit is 10 times the factor's stored entries. Refuses with [`Error::TooLarge`] for more than 1,048,576 row pairs
/// or an operator that is too large, with [`Error::DimensionMismatch`] for an operator of another dimension, then with
/// [`Error::BrokenOperator`], also for a row pair outside, and with [`Error::NonPositiveDefinite`].
///
/// The variance of the difference of two volumes is the sum of their variances less twice their covariance:
///
/// ```
/// use redstartgilt::{
///     selected_inverse_transformed_covariances, selected_inverse_transformed_diag, CholeskyFactor, SparseRowOperator,
/// };
///
/// let factor = CholeskyFactor::new(2, vec![0, 2, 3], vec![0, 1, 1], vec![1.0, 2.0, 1.0])?;
/// // Two areas: cell 0, and cell 1 with weight 3.
/// let one = SparseRowOperator::new(2, vec![vec![(0, 1.0)]])?;
/// let other = SparseRowOperator::new(2, vec![vec![(1, 3.0)]])?;
/// let result = selected_inverse_transformed_covariances(&factor, &one, &other, &[(0, 0)])?;
/// let covariance = result.covariances.unwrap()[0];
/// assert_eq!(covariance, -6.0);
///
/// // Their difference, and each of them.
/// let areas = SparseRowOperator::new(2, vec![vec![(0, 1.0), (1, -3.0)], vec![(0, 1.0)], vec![(1, 3.0)]])?;
/// let variances = selected_inverse_transformed_diag(&factor, &areas)?.estimate.unwrap().values;
/// assert_eq!(variances[0], variances[1] + variances[2] - 2.0 * covariance);
/// # Ok::<(), redstartgilt::Error>(())
/// ```
pub fn selected_inverse_transformed_covariances(
    factor: &CholeskyFactor,
    a: &SparseRowOperator,
    b: &SparseRowOperator,
    row_pairs: &[(usize, usize)],
) -> Result<SelectedInverseTransformedCovariances, Error> {
    selected_inverse_transformed_covariances_in(factor, a, b, row_pairs, &mut Workspace::new())
}

/// [`selected_inverse_transformed_covariances`] with memory that is used again.
pub fn selected_inverse_transformed_covariances_in(
    factor: &CholeskyFactor,
    a: &SparseRowOperator,
    b: &SparseRowOperator,
    row_pairs: &[(usize, usize)],
    workspace: &mut Workspace,
) -> Result<SelectedInverseTransformedCovariances, Error> {
    let (compressed_a, compressed_b) = (a.compressed_for(factor), b.compressed_for(factor));
    let (a_rows, b_rows) = row_lists(row_pairs);
    let mut covariances = vec![0.0; row_pairs.len()];
    let (result, scratch) = workspace.lend(factor.dimension(), default_limit(factor.nnz()));
    let diagnostics = lent::selected_inverse_transformed_covariances(
        factor.lists(),
        compressed_a.lists(),
        compressed_b.lists(),
        &a_rows,
        &b_rows,
        result,
        scratch,
        &mut covariances,
    )?;
    Ok(SelectedInverseTransformedCovariances::of_values(
        covariances,
        diagnostics,
    ))
}

/// The covariances of rows of `a` with rows of `b`, if the closed set of their pairs has at most `closure_limit` pairs.
///
/// Refuses as [`selected_inverse_transformed_covariances`] does. A limit of n (n + 1) / 2 is never passed.
///
/// ```
/// use redstartgilt::{selected_inverse_transformed_covariances_with_limit, CholeskyFactor, SparseRowOperator};
///
/// let factor = CholeskyFactor::new(2, vec![0, 2, 3], vec![0, 1, 1], vec![1.0, 2.0, 1.0])?;
/// let cells = SparseRowOperator::identity(2);
/// let found = |limit| selected_inverse_transformed_covariances_with_limit(&factor, &cells, &cells, &[(0, 1)], limit);
/// assert_eq!(found(2)?.covariances, Some(vec![-2.0]));
/// assert_eq!(found(1)?.covariances, None);
/// # Ok::<(), redstartgilt::Error>(())
/// ```
pub fn selected_inverse_transformed_covariances_with_limit(
    factor: &CholeskyFactor,
    a: &SparseRowOperator,
    b: &SparseRowOperator,
    row_pairs: &[(usize, usize)],
    closure_limit: usize,
) -> Result<SelectedInverseTransformedCovariances, Error> {
    let workspace = &mut Workspace::new();
    selected_inverse_transformed_covariances_with_limit_in(factor, a, b, row_pairs, closure_limit, workspace)
}

/// [`selected_inverse_transformed_covariances_with_limit`] with memory that is used again.
pub fn selected_inverse_transformed_covariances_with_limit_in(
    factor: &CholeskyFactor,
    a: &SparseRowOperator,
    b: &SparseRowOperator,
    row_pairs: &[(usize, usize)],
    closure_limit: usize,
    workspace: &mut Workspace,
) -> Result<SelectedInverseTransformedCovariances, Error> {
    let (compressed_a, compressed_b) = (a.compressed_for(factor), b.compressed_for(factor));
    let (a_rows, b_rows) = row_lists(row_pairs);
    let mut covariances = vec![0.0; row_pairs.len()];
    let (result, scratch) = workspace.lend(factor.dimension(), closure_limit);
    let diagnostics = lent::selected_inverse_transformed_covariances_with_limit(
        factor.lists(),
        compressed_a.lists(),
        compressed_b.lists(),
        &a_rows,
        &b_rows,
        closure_limit,
        result,
        scratch,
        &mut covariances,
    )?;
    Ok(SelectedInverseTransformedCovariances::of_values(
        covariances,
        diagnostics,
    ))
}

fn row_lists(row_pairs: &[(usize, usize)]) -> (Vec<u32>, Vec<u32>) {
    row_pairs.iter().map(|pair| (word(pair.0), word(pair.1))).unzip()
}
