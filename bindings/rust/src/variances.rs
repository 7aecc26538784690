//! Variances of cells and of operator rows.

use crate::lent::{self, default_limit};
use crate::{count_and_least, CholeskyFactor, Error, SelectedInverseDiagnostics, SparseRowOperator, Workspace};

/// Variances, with how many are negative and the least of them.
///
/// The values are those before gmrf-rs's averaging over one batch, which turns −0.0 into 0.0 and changes nothing else.
#[derive(Debug, Clone, PartialEq)]
pub struct VarianceEstimate {
    /// The variances.
    pub values: Vec<f64>,
    /// Values below 0.
    pub num_negative: usize,
    /// The least value; 0.0 for no values.
    pub min_value: f64,
}

impl VarianceEstimate {
    fn of_values(values: Vec<f64>) -> Self {
        let counted = count_and_least(&values);
        Self {
            values,
            num_negative: counted.num_negative,
            min_value: counted.min_value,
        }
    }
}

/// The variances of all cells, with status and counts.
#[derive(Debug, Clone, PartialEq)]
pub struct SelectedInverseDiagResult {
    /// The variances, in original order.
    pub estimate: VarianceEstimate,
    /// Status and counts.
    pub diagnostics: SelectedInverseDiagnostics,
}

impl SelectedInverseDiagResult {
    fn of_values(values: Vec<f64>, diagnostics: SelectedInverseDiagnostics) -> Self {
        Self {
            estimate: VarianceEstimate::of_values(values),
            diagnostics,
        }
    }
}

/// The variances of an operator's rows, with status and counts.
#[derive(Debug, Clone, PartialEq)]
pub struct SelectedInverseTransformedResult {
    /// The variances; `None` where the closed set passes the limit.
    pub estimate: Option<VarianceEstimate>,
    /// Status and counts.
    pub diagnostics: SelectedInverseDiagnostics,
}

impl SelectedInverseTransformedResult {
    fn of_values(values: Vec<f64>, diagnostics: SelectedInverseDiagnostics) -> Self {
        Self {
            estimate: diagnostics.is_complete().then(|| VarianceEstimate::of_values(values)),
            diagnostics,
        }
    }
}

/// The variances of all cells, in original order; as [`selected_inverse_diag_with_diagnostics`].
pub fn selected_inverse_diag(factor: &CholeskyFactor) -> Result<VarianceEstimate, Error> {
    Ok(selected_inverse_diag_with_diagnostics(factor)?.estimate)
}

/// The variances of all cells, in original order, with status and counts.
///
/// The limit is 10 times the factor's stored entries; refuses with [`Error::NonPositiveDefinite`], and with
/// [`Error::NotCovered`] where the closed set of all diagonals passes it.
///
/// ```
/// use redstartgilt::{selected_inverse_diag_with_diagnostics, CholeskyFactor};
///
/// let factor = CholeskyFactor::new(2, vec![0, 2, 3], vec![0, 1, 1], vec![1.0, 2.0, 1.0])?;
/// let result = selected_inverse_diag_with_diagnostics(&factor)?;
/// assert_eq!(result.estimate.values, [5.0, 1.0]);
/// assert_eq!(result.estimate.min_value, 1.0);
/// assert_eq!(result.diagnostics.closure_pairs, 3);
/// # Ok::<(), redstartgilt::Error>(())
/// ```
pub fn selected_inverse_diag_with_diagnostics(factor: &CholeskyFactor) -> Result<SelectedInverseDiagResult, Error> {
    selected_inverse_diag_with_diagnostics_in(factor, &mut Workspace::new())
}

/// [`selected_inverse_diag_with_diagnostics`] with memory that is used again.
pub fn selected_inverse_diag_with_diagnostics_in(
    factor: &CholeskyFactor,
    workspace: &mut Workspace,
) -> Result<SelectedInverseDiagResult, Error> {
    let n = factor.dimension();
    let mut values = vec![0.0; n];
    let (result, scratch) = workspace.lend(n, default_limit(factor.nnz()));
    let diagnostics =
        lent::selected_inverse_diag_with_diagnostics(factor.lists(), &factor.order(), result, scratch, &mut values)?;
    Ok(SelectedInverseDiagResult::of_values(values, diagnostics))
}

/// The variances of all cells, in original order, if the closed set of all diagonals has at most `closure_limit` pairs.
///
/// Refuses as [`selected_inverse_diag_with_diagnostics`] does. A limit of n (n + 1) / 2 is never passed.
///
/// ```
/// use redstartgilt::{selected_inverse_diag_with_limit, CholeskyFactor, Error};
///
/// let factor = CholeskyFactor::new(2, vec![0, 2, 3], vec![0, 1, 1], vec![1.0, 2.0, 1.0])?;
/// assert_eq!(selected_inverse_diag_with_limit(&factor, 3)?.estimate.values, [5.0, 1.0]);
/// assert_eq!(selected_inverse_diag_with_limit(&factor, 2), Err(Error::NotCovered));
/// # Ok::<(), redstartgilt::Error>(())
/// ```
pub fn selected_inverse_diag_with_limit(
    factor: &CholeskyFactor,
    closure_limit: usize,
) -> Result<SelectedInverseDiagResult, Error> {
    selected_inverse_diag_with_limit_in(factor, closure_limit, &mut Workspace::new())
}

/// [`selected_inverse_diag_with_limit`] with memory that is used again.
pub fn selected_inverse_diag_with_limit_in(
    factor: &CholeskyFactor,
    closure_limit: usize,
    workspace: &mut Workspace,
) -> Result<SelectedInverseDiagResult, Error> {
    let n = factor.dimension();
    let mut values = vec![0.0; n];
    let (result, scratch) = workspace.lend(n, closure_limit);
    let diagnostics = lent::selected_inverse_diag_with_limit(
        factor.lists(),
        &factor.order(),
        closure_limit,
        result,
        scratch,
        &mut values,
    )?;
    Ok(SelectedInverseDiagResult::of_values(values, diagnostics))
}

/// The variances of an operator's rows, with status and counts; the operator's cells are in original order.
///
/// The limit is 10 times the factor's stored entries. Refuses with [`Error::DimensionMismatch`] for an operator of
/// another dimension, then with [`Error::BrokenOperator`] and [`Error::NonPositiveDefinite`].
///
/// ```
/// use redstartgilt::{selected_inverse_transformed_diag, CholeskyFactor, SparseRowOperator};
///
/// let factor = CholeskyFactor::new(2, vec![0, 2, 3], vec![0, 1, 1], vec![1.0, 2.0, 1.0])?;
/// let sum = SparseRowOperator::new(2, vec![vec![(0, 1.0), (1, 1.0)]])?;
/// let result = selected_inverse_transformed_diag(&factor, &sum)?;
/// assert_eq!(result.estimate.unwrap().values, [2.0]);
/// # Ok::<(), redstartgilt::Error>(())
/// ```
pub fn selected_inverse_transformed_diag(
    factor: &CholeskyFactor,
    operator: &SparseRowOperator,
) -> Result<SelectedInverseTransformedResult, Error> {
    selected_inverse_transformed_diag_in(factor, operator, &mut Workspace::new())
}

/// [`selected_inverse_transformed_diag`] with memory that is used again.
pub fn selected_inverse_transformed_diag_in(
    factor: &CholeskyFactor,
    operator: &SparseRowOperator,
    workspace: &mut Workspace,
) -> Result<SelectedInverseTransformedResult, Error> {
    let n = factor.dimension();
    let compressed = operator.compressed_for(factor);
    let mut values = vec![0.0; operator.nrows()];
    let (result, scratch) = workspace.lend(n, default_limit(factor.nnz()));
    let diagnostics =
        lent::selected_inverse_transformed_diag(factor.lists(), compressed.lists(), result, scratch, &mut values)?;
    Ok(SelectedInverseTransformedResult::of_values(values, diagnostics))
}

/// The variances of an operator's rows, if the closed set of their pairs has at most `closure_limit` pairs.
///
/// Refuses as [`selected_inverse_transformed_diag`] does. A limit of n (n + 1) / 2 is never passed, so a volume over a
/// whole harbour, whose row has every cell, is answered with it.
///
/// ```
/// use redstartgilt::{selected_inverse_transformed_diag_with_limit, CholeskyFactor, SparseRowOperator};
///
/// let factor = CholeskyFactor::new(2, vec![0, 2, 3], vec![0, 1, 1], vec![1.0, 2.0, 1.0])?;
/// let sum = SparseRowOperator::new(2, vec![vec![(0, 1.0), (1, 1.0)]])?;
/// let result = selected_inverse_transformed_diag_with_limit(&factor, &sum, 3)?;
/// assert_eq!(result.estimate.unwrap().values, [2.0]);
/// assert!(selected_inverse_transformed_diag_with_limit(&factor, &sum, 2)?.estimate.is_none());
/// # Ok::<(), redstartgilt::Error>(())
/// ```
pub fn selected_inverse_transformed_diag_with_limit(
    factor: &CholeskyFactor,
    operator: &SparseRowOperator,
    closure_limit: usize,
) -> Result<SelectedInverseTransformedResult, Error> {
    selected_inverse_transformed_diag_with_limit_in(factor, operator, closure_limit, &mut Workspace::new())
}

/// [`selected_inverse_transformed_diag_with_limit`] with memory that is used again.
pub fn selected_inverse_transformed_diag_with_limit_in(
    factor: &CholeskyFactor,
    operator: &SparseRowOperator,
    closure_limit: usize,
    workspace: &mut Workspace,
) -> Result<SelectedInverseTransformedResult, Error> {
    let compressed = operator.compressed_for(factor);
    let mut values = vec![0.0; operator.nrows()];
    let (result, scratch) = workspace.lend(factor.dimension(), closure_limit);
    let diagnostics = lent::selected_inverse_transformed_diag_with_limit(
        factor.lists(),
        compressed.lists(),
        closure_limit,
        result,
        scratch,
        &mut values,
    )?;
    Ok(SelectedInverseTransformedResult::of_values(values, diagnostics))
}
