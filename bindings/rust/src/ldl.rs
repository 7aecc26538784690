//! Selected entries of a factor with pivots, L·D·Lᵀ.

use crate::inverse::answer;
use crate::lent::{self, default_limit, FactorLists};
use crate::{CholeskyFactor, Error, Permutation, SelectedInverseEntries, SparseSymmetricPattern, Workspace};

/// A sparse lower factor L with ones on its diagonal, and pivots: the diagonal D of L·D·Lᵀ.
///
/// Which factor you have: of L·Lᵀ the diagonal of L is stored and positive, and it is a [`CholeskyFactor`]. Of L·D·Lᵀ
/// the diagonal of L is 1, stored or not, and D is a list of pivots above 0.0, one for each column.
///
/// Entries above the diagonal and entries of 0.0 of either sign, diagonals too, are dropped by every call. They count as
/// stored entries, so they raise the default limit; diagonals that are not stored do not.
///
/// It is checked when it is made, so that calls refuse requests alone.
///
/// ```
/// use redstartgilt::{selected_inverse_entries, selected_inverse_entries_ldl};
/// use redstartgilt::{CholeskyFactor, LdlFactor, SparseSymmetricPattern};
///
/// // The matrix (4, 8; 8, 17) in both forms.
/// let cholesky = CholeskyFactor::new(2, vec![0, 2, 3], vec![0, 1, 1], vec![2.0, 4.0, 1.0])?;
/// let ldl = LdlFactor::new(2, vec![0, 1, 1], vec![1], vec![2.0], vec![4.0, 1.0])?;
///
/// let requested = SparseSymmetricPattern::diagonal(2);
/// let one = selected_inverse_entries(&cholesky, &requested)?.inverse.unwrap();
/// let other = selected_inverse_entries_ldl(&ldl, &requested)?.inverse.unwrap();
/// assert_eq!(one.diag(), [Some(4.25), Some(1.0)]);
/// assert_eq!(one, other);
/// # Ok::<(), redstartgilt::Error>(())
/// ```
#[derive(Debug, Clone, PartialEq)]
pub struct LdlFactor {
    lower: CholeskyFactor,
    pivots: Vec<f64>,
}

impl LdlFactor {
    /// A factor of dimension n from its compressed columns, with or without the ones of the diagonal, and its pivots.
    ///
    /// Refuses as [`CholeskyFactor::new`] does; then pivots that are not n with [`Error::DimensionMismatch`], one that is
    /// not finite with [`Error::NotFiniteEntry`], a diagonal other than 1 with [`Error::PivotDiagonalNotOne`], and a
    /// pivot at most 0.0 with [`Error::NonPositiveDefinite`], by the library's checks.
    pub fn new(n: usize, starts: Vec<u32>, rows: Vec<u32>, values: Vec<f64>, pivots: Vec<f64>) -> Result<Self, Error> {
        Self::checked(CholeskyFactor::new(n, starts, rows, values)?, pivots)
    }

    fn checked(lower: CholeskyFactor, pivots: Vec<f64>) -> Result<Self, Error> {
        lent::check_ldl_factor(lower.lists(), &pivots)?;
        Ok(Self { lower, pivots })
    }

    /// A factor from entries (row, column, value) in any order, and its pivots.
    ///
    /// Refuses as [`LdlFactor::new`] does; two entries at one position, or one outside the dimension, give
    /// [`Error::BrokenRows`].
    ///
    /// ```
    /// use redstartgilt::{Error, LdlFactor};
    ///
    /// let columns = LdlFactor::new(2, vec![0, 1, 1], vec![1], vec![2.0], vec![4.0, 1.0])?;
    /// assert_eq!(columns, LdlFactor::from_triplets(2, &[(1, 0, 2.0)], vec![4.0, 1.0])?);
    /// let refused = LdlFactor::from_triplets(2, &[(1, 0, 2.0), (1, 1, 0.5)], vec![4.0, 1.0]);
    /// assert_eq!(refused, Err(Error::PivotDiagonalNotOne));
    /// # Ok::<(), redstartgilt::Error>(())
    /// ```
    pub fn from_triplets(n: usize, triplets: &[(usize, usize, f64)], pivots: Vec<f64>) -> Result<Self, Error> {
        Self::checked(CholeskyFactor::from_triplets(n, triplets)?, pivots)
    }

    /// The factor with the permutation of its order: its row and column `orig_to_perm[i]` belong to cell i.
    ///
    /// Refuses as [`CholeskyFactor::with_permutation`] does.
    pub fn with_permutation(self, permutation: Permutation) -> Result<Self, Error> {
        let lower = self.lower.with_permutation(permutation)?;
        Ok(Self { lower, ..self })
    }

    /// The dimension n.
    pub fn dimension(&self) -> usize {
        self.lower.dimension()
    }

    /// The number of stored entries of L, dropped ones counted.
    pub fn nnz(&self) -> usize {
        self.lower.nnz()
    }

    /// The pivot of each column.
    pub fn pivots(&self) -> &[f64] {
        &self.pivots
    }

    /// The permutation of the factor's order; the identity where none was given.
    pub fn permutation(&self) -> Permutation {
        self.lower.permutation()
    }

    /// The entries (row, column, value) of L that are stored and kept: on or below the diagonal and not 0.0, by column
    /// then row.
    pub fn lower_triplets(&self) -> Vec<(usize, usize, f64)> {
        self.lower.lower_triplets()
    }

    /// Values in factor order that are not all there, put in original order: the variance of each cell that was computed.
    ///
    /// Refuses a list of another length with [`Error::DimensionMismatch`].
    pub fn permute_factor_to_original_marked(&self, input: &[Option<f64>]) -> Result<Vec<Option<f64>>, Error> {
        self.lower.permute_factor_to_original_marked(input)
    }

    /// The lists of L, to be lent beside the pivots.
    pub fn lists(&self) -> FactorLists<'_> {
        self.lower.lists()
    }
}

/// The entries of the inverse of L·D·Lᵀ at the requested pairs, and at all pairs that the recurrence needs for them, with
/// the default limit of 10 times the stored entries of L.
///
/// Requests are in the factor's order. Refuses with [`Error::TooLarge`] above 1,048,576 requests, then with
/// [`Error::DimensionMismatch`] and [`Error::RequestOutOfRange`].
///
/// A diagonal that is not stored does not count in the limit. Where L has few entries,
/// [`selected_inverse_entries_ldl_with_limit`] is the call to make:
///
/// ```
/// use redstartgilt::{selected_inverse_entries_ldl, selected_inverse_entries_ldl_with_limit};
/// use redstartgilt::{LdlFactor, SparseSymmetricPattern};
///
/// let (factor, requested) = (LdlFactor::from_triplets(1, &[], vec![4.0])?, SparseSymmetricPattern::diagonal(1));
/// assert!(selected_inverse_entries_ldl(&factor, &requested)?.inverse.is_none());
/// let inverse = selected_inverse_entries_ldl_with_limit(&factor, &requested, 1)?.inverse.unwrap();
/// assert_eq!(inverse.get(0, 0), Some(0.25));
/// # Ok::<(), redstartgilt::Error>(())
/// ```
pub fn selected_inverse_entries_ldl(
    factor: &LdlFactor,
    requested: &SparseSymmetricPattern,
) -> Result<SelectedInverseEntries, Error> {
    selected_inverse_entries_ldl_in(factor, requested, &mut Workspace::new())
}

/// [`selected_inverse_entries_ldl`] with memory that is used again.
pub fn selected_inverse_entries_ldl_in(
    factor: &LdlFactor,
    requested: &SparseSymmetricPattern,
    workspace: &mut Workspace,
) -> Result<SelectedInverseEntries, Error> {
    let n = factor.dimension();
    let (rows, columns) = requested.request_lists();
    let (result, scratch) = workspace.lend(n, default_limit(factor.nnz()));
    let diagnostics = lent::selected_inverse_entries_ldl(
        factor.lists(),
        factor.pivots(),
        requested.dimension,
        &rows,
        &columns,
        result,
        scratch,
    )?;
    Ok(answer(n, diagnostics, workspace))
}

/// The entries of the inverse of L·D·Lᵀ at the requested pairs, and at all pairs that the recurrence needs for them, if
/// they are at most `closure_limit`.
///
/// Refuses as [`selected_inverse_entries_ldl`] does.
pub fn selected_inverse_entries_ldl_with_limit(
    factor: &LdlFactor,
    requested: &SparseSymmetricPattern,
    closure_limit: usize,
) -> Result<SelectedInverseEntries, Error> {
    selected_inverse_entries_ldl_with_limit_in(factor, requested, closure_limit, &mut Workspace::new())
}

/// [`selected_inverse_entries_ldl_with_limit`] with memory that is used again.
pub fn selected_inverse_entries_ldl_with_limit_in(
    factor: &LdlFactor,
    requested: &SparseSymmetricPattern,
    closure_limit: usize,
    workspace: &mut Workspace,
) -> Result<SelectedInverseEntries, Error> {
    let n = factor.dimension();
    let (rows, columns) = requested.request_lists();
    let (result, scratch) = workspace.lend(n, closure_limit);
    let diagnostics = lent::selected_inverse_entries_ldl_with_limit(
        factor.lists(),
        factor.pivots(),
        requested.dimension,
        &rows,
        &columns,
        closure_limit,
        result,
        scratch,
    )?;
    Ok(answer(n, diagnostics, workspace))
}
