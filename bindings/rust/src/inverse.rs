//! Selected entries of the inverse.

use crate::columns::Columns;
use crate::lent::{self, default_limit, EntryLists};
use crate::marks::covered;
use crate::{CholeskyFactor, Error, SelectedInverseDiagnostics, SparseSymmetricPattern, Workspace};

/// Entries of the inverse of L·Lᵀ, or of L·D·Lᵀ for an [`LdlFactor`](crate::LdlFactor), on a closed set of pairs, in the
/// factor's order.
#[derive(Debug, Clone, PartialEq)]
pub struct SparseSelectedInverse {
    columns: Columns<f64>,
}

impl SparseSelectedInverse {
    /// The dimension of the factor.
    pub fn dimension(&self) -> usize {
        self.columns.n
    }

    /// The entry at a pair, which may be in either order; `None` for a pair that is not in the closed set.
    #[inline]
    pub fn get(&self, row: usize, column: usize) -> Option<f64> {
        // Nothing but the library has written to these lists.
        lent::get_well_formed(self.lists(), row, column)
    }

    /// What [`get`](Self::get) gives, and how many places of the column a search that counts them looks at for it:
    /// [`lent::get_counted`], which checks the column first and so takes longer.
    ///
    /// ```
    /// use redstartgilt::{selected_inverse_entries, CholeskyFactor, SparseSymmetricPattern};
    ///
    /// let factor = CholeskyFactor::new(2, vec![0, 2, 3], vec![0, 1, 1], vec![1.0, 2.0, 1.0])?;
    /// let inverse = selected_inverse_entries(&factor, &SparseSymmetricPattern::diagonal(2))?.inverse.unwrap();
    /// assert_eq!(inverse.get_counted(0, 0), (Some(5.0), 1));
    /// assert_eq!(inverse.get_counted(0, 1), (Some(-2.0), 2));
    /// # Ok::<(), redstartgilt::Error>(())
    /// ```
    pub fn get_counted(&self, row: usize, column: usize) -> (Option<f64>, usize) {
        let found = lent::get_counted(self.lists(), row, column);
        let value = match found.entry {
            Ok(value) => Some(value),
            Err(Error::NotCovered) => None,
            Err(error) => panic!("entries that a call has filled: {error}"),
        };
        (value, found.looks)
    }

    /// The diagonal: the variance of each cell, in the factor's order; `None` for a cell that is not in the closed set.
    ///
    /// [`CholeskyFactor::permute_factor_to_original_marked`] puts it in original order.
    ///
    /// ```
    /// use redstartgilt::{selected_inverse_entries, CholeskyFactor, SparseSymmetricPattern};
    ///
    /// let factor = CholeskyFactor::new(2, vec![0, 2, 3], vec![0, 1, 1], vec![1.0, 2.0, 1.0])?;
    /// let mut requested = SparseSymmetricPattern::new(2);
    /// requested.insert(1, 1)?;
    /// let inverse = selected_inverse_entries(&factor, &requested)?.inverse.unwrap();
    /// assert_eq!(inverse.diag(), [None, Some(1.0)]);
    /// # Ok::<(), redstartgilt::Error>(())
    /// ```
    pub fn diag(&self) -> Vec<Option<f64>> {
        let (values, marks) = self.marked_diag();
        covered(&values, &marks)
    }

    /// The diagonal as gmrf-rs's `diag` gives it: 0.0 also for a cell that is not in the closed set.
    ///
    /// ```
    /// # use redstartgilt::{selected_inverse_entries, CholeskyFactor, SparseSymmetricPattern};
    /// # let factor = CholeskyFactor::new(2, vec![0, 2, 3], vec![0, 1, 1], vec![1.0, 2.0, 1.0])?;
    /// # let mut requested = SparseSymmetricPattern::new(2);
    /// # requested.insert(1, 1)?;
    /// # let inverse = selected_inverse_entries(&factor, &requested)?.inverse.unwrap();
    /// assert_eq!(inverse.diag_or_zero(), [0.0, 1.0]);
    /// # Ok::<(), redstartgilt::Error>(())
    /// ```
    pub fn diag_or_zero(&self) -> Vec<f64> {
        self.marked_diag().0
    }

    /// Writes the diagonal to the first places of two lists, without allocating: the value and the mark 1 for a cell of
    /// the closed set, 0.0 and the mark 0 for every other; [`Error::TooShort`] where either has too few.
    pub fn diag_into(&self, values: &mut [f64], marks: &mut [u8]) -> Result<(), Error> {
        lent::diag(self.lists(), values, marks)
    }

    fn marked_diag(&self) -> (Vec<f64>, Vec<u8>) {
        let (mut values, mut marks) = (vec![0.0; self.columns.n], vec![0; self.columns.n]);
        self.diag_into(&mut values, &mut marks)
            .expect("entries that a call has filled, and lists of their dimension");
        (values, marks)
    }

    /// The number of entries.
    pub fn len(&self) -> usize {
        self.columns.values.len()
    }

    /// Whether there are no entries.
    pub fn is_empty(&self) -> bool {
        self.columns.values.is_empty()
    }

    /// The entries (row, column, value), row ≥ column, by column then row.
    pub fn entries(&self) -> impl Iterator<Item = (usize, usize, f64)> + '_ {
        self.columns.entries()
    }

    /// The entries' lists, in the layout of a factor.
    #[inline]
    pub fn lists(&self) -> EntryLists<'_> {
        self.columns.entry_lists()
    }
}

/// The answer to a request for entries, in floats or in whole numbers.
#[derive(Debug, Clone, PartialEq)]
pub struct SelectedInverseEntries<I = SparseSelectedInverse> {
    /// The entries; `None` where the closed set passes the limit.
    pub inverse: Option<I>,
    /// Status and counts.
    pub diagnostics: SelectedInverseDiagnostics,
}

/// The entries at the requested pairs, and at all pairs that the recurrence needs for them, with the default limit of
/// 10 times the factor's stored entries.
///
/// Requests are in the factor's order. Refuses with [`Error::TooLarge`] above 1,048,576 requests, then with
/// [`Error::DimensionMismatch`], [`Error::RequestOutOfRange`] and [`Error::NonPositiveDefinite`].
///
/// ```
/// use redstartgilt::{selected_inverse_entries, CholeskyFactor, SparseSymmetricPattern};
///
/// let factor = CholeskyFactor::new(1, vec![0, 1], vec![0], vec![2.0])?;
/// let selected = selected_inverse_entries(&factor, &SparseSymmetricPattern::diagonal(1))?;
/// assert_eq!(selected.inverse.unwrap().get(0, 0), Some(0.25));
/// assert_eq!(selected.diagnostics.closure_limit, 10);
/// # Ok::<(), redstartgilt::Error>(())
/// ```
pub fn selected_inverse_entries(
    factor: &CholeskyFactor,
    requested: &SparseSymmetricPattern,
) -> Result<SelectedInverseEntries, Error> {
    selected_inverse_entries_in(factor, requested, &mut Workspace::new())
}

/// [`selected_inverse_entries`] with memory that is used again.
pub fn selected_inverse_entries_in(
    factor: &CholeskyFactor,
    requested: &SparseSymmetricPattern,
    workspace: &mut Workspace,
) -> Result<SelectedInverseEntries, Error> {
    let n = factor.dimension();
    let (rows, columns) = requested.request_lists();
    let (result, scratch) = workspace.lend(n, default_limit(factor.nnz()));
    let diagnostics =
        lent::selected_inverse_entries(factor.lists(), requested.dimension, &rows, &columns, result, scratch)?;
    Ok(answer(n, diagnostics, workspace))
}

/// The entries at the requested pairs, and at all pairs that the recurrence needs for them, if they are at most
/// `closure_limit`.
///
/// Refuses as [`selected_inverse_entries`] does.
///
/// ```
/// use redstartgilt::{
///     selected_inverse_entries_with_limit, CholeskyFactor, SelectedInverseStatus, SparseSymmetricPattern,
/// };
///
/// let factor = CholeskyFactor::new(2, vec![0, 2, 3], vec![0, 1, 1], vec![1.0, 2.0, 1.0])?;
/// let mut requested = SparseSymmetricPattern::new(2);
/// requested.insert(0, 0)?;
/// let selected = selected_inverse_entries_with_limit(&factor, &requested, 2)?;
/// assert_eq!(selected.diagnostics.status, SelectedInverseStatus::ClosureTooLarge);
/// assert_eq!(selected.diagnostics.closure_pairs, 3);
/// assert!(selected.inverse.is_none());
/// # Ok::<(), redstartgilt::Error>(())
/// ```
pub fn selected_inverse_entries_with_limit(
    factor: &CholeskyFactor,
    requested: &SparseSymmetricPattern,
    closure_limit: usize,
) -> Result<SelectedInverseEntries, Error> {
    selected_inverse_entries_with_limit_in(factor, requested, closure_limit, &mut Workspace::new())
}

/// [`selected_inverse_entries_with_limit`] with memory that is used again.
pub fn selected_inverse_entries_with_limit_in(
    factor: &CholeskyFactor,
    requested: &SparseSymmetricPattern,
    closure_limit: usize,
    workspace: &mut Workspace,
) -> Result<SelectedInverseEntries, Error> {
    let n = factor.dimension();
    let (rows, columns) = requested.request_lists();
    let (result, scratch) = workspace.lend(n, closure_limit);
    let diagnostics = lent::selected_inverse_entries_with_limit(
        factor.lists(),
        requested.dimension,
        &rows,
        &columns,
        closure_limit,
        result,
        scratch,
    )?;
    Ok(answer(n, diagnostics, workspace))
}

pub(crate) fn answer(
    n: usize,
    diagnostics: SelectedInverseDiagnostics,
    workspace: &Workspace,
) -> SelectedInverseEntries {
    let inverse = diagnostics.is_complete().then(|| {
        let columns = workspace.filled(n, diagnostics.closure_pairs);
        SparseSelectedInverse { columns }
    });
    SelectedInverseEntries { inverse, diagnostics }
}
