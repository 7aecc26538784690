//! Selected entries of the inverse in whole numbers.

use crate::columns::Columns;
use crate::lent::{self, default_limit, EntryLists, FactorLists};
use crate::{Error, SelectedInverseDiagnostics, SelectedInverseEntries, SparseSymmetricPattern, Workspace};

/// A sparse lower factor L of whole numbers in compressed columns, for entries of the inverse that are exact.
///
/// Entries above the diagonal and entries of 0 are dropped by every call: L means the others. They count as stored
/// entries, so they raise the default limit.
///
/// Its lists are checked when it is made. That the diagonal of L is 1 in each column is checked by the calls, which refuse
/// with [`Error::DiagonalNotOne`] and [`Error::NonPositiveDefinite`].
///
/// ```
/// use redstartgilt::WholeFactor;
///
/// // Columns (1, -3) and (·, 1).
/// let columns = WholeFactor::new(2, vec![0, 2, 3], vec![0, 1, 1], vec![1, -3, 1])?;
/// let triplets = WholeFactor::from_triplets(2, &[(1, 1, 1), (1, 0, -3), (0, 0, 1)])?;
/// assert_eq!(columns, triplets);
/// # Ok::<(), redstartgilt::Error>(())
/// ```
#[derive(Debug, Clone, PartialEq)]
pub struct WholeFactor {
    columns: Columns<i64>,
}

impl WholeFactor {
    /// A factor of dimension n from its compressed columns: n + 1 starts, then for each column its row indices,
    /// ascending, and its values.
    ///
    /// Refuses with [`Error::TooLarge`], [`Error::BrokenStarts`] and [`Error::BrokenRows`], by the library's checks.
    pub fn new(n: usize, starts: Vec<u32>, rows: Vec<u32>, values: Vec<i64>) -> Result<Self, Error> {
        Self::checked(Columns {
            n,
            starts,
            rows,
            values,
        })
    }

    fn checked(columns: Columns<i64>) -> Result<Self, Error> {
        lent::check_whole_factor(columns.factor_lists())?;
        Ok(Self { columns })
    }

    /// A factor from entries (row, column, value) in any order.
    ///
    /// Refuses as [`WholeFactor::new`] does; two entries at one position, or one outside the dimension, give
    /// [`Error::BrokenRows`].
    pub fn from_triplets(n: usize, triplets: &[(usize, usize, i64)]) -> Result<Self, Error> {
        Self::checked(Columns::from_triplets(n, triplets)?)
    }

    /// The dimension n.
    pub fn dimension(&self) -> usize {
        self.columns.n
    }

    /// The number of stored entries, dropped ones counted.
    pub fn nnz(&self) -> usize {
        self.columns.values.len()
    }

    /// The entries (row, column, value) that are kept: on or below the diagonal and not 0, by column then row.
    pub fn lower_triplets(&self) -> Vec<(usize, usize, i64)> {
        self.lists().kept().collect()
    }

    /// The factor's lists, to be lent.
    pub fn lists(&self) -> FactorLists<'_, i64> {
        self.columns.factor_lists()
    }
}

/// Exact entries of the inverse of L·Lᵀ on a closed set of pairs, in the factor's order.
#[derive(Debug, Clone, PartialEq)]
pub struct WholeSelectedInverse {
    columns: Columns<i64>,
}

impl WholeSelectedInverse {
    /// The dimension of the factor.
    pub fn dimension(&self) -> usize {
        self.columns.n
    }

    /// The entry at a pair, which may be in either order; `None` for a pair that is not in the closed set. It reads the
    /// rows of one column.
    pub fn get(&self, row: usize, column: usize) -> Option<i64> {
        match lent::get_whole(self.lists(), row, column) {
            Ok(value) => Some(value),
            Err(Error::NotCovered) => None,
            Err(error) => panic!("entries that a call has filled: {error}"),
        }
    }

    /// The diagonal: the variance of each cell, in the factor's order; `None` for a cell that is not in the closed set.
    pub fn diag(&self) -> Vec<Option<i64>> {
        (0..self.columns.n).map(|cell| self.get(cell, cell)).collect()
    }

    /// The number of entries.
    pub fn len(&self) -> usize {
        self.columns.values.len()
    }

    /// Whether there are no entries.
    pub fn is_empty(&self) -> bool {
        self.columns.values.is_empty()
    }

    /// The entries (row, column, value), row ≥ column, by column then row.
    pub fn entries(&self) -> impl Iterator<Item = (usize, usize, i64)> + '_ {
        self.columns.entries()
    }

    /// The entries' lists, in the layout of a factor.
    pub fn lists(&self) -> EntryLists<'_, i64> {
        self.columns.entry_lists()
    }
}

/// The exact entries at the requested pairs, and at all pairs that the recurrence needs for them, with the default limit
/// of 10 times the factor's stored entries.
///
/// Requests are in the factor's order. Refuses with [`Error::TooLarge`] above 1,048,576 requests, then with
/// [`Error::DimensionMismatch`], [`Error::RequestOutOfRange`], [`Error::DiagonalNotOne`] and
/// [`Error::NonPositiveDefinite`]; and last with [`Error::NumberTooLarge`] where an entry of the factor, or a product,
/// running sum or entry of the recurrence, is beyond 2^53 in size. Nothing is ever rounded.
///
/// For the same factor as floats [`selected_inverse_entries`](crate::selected_inverse_entries) then gives equal entries.
///
/// ```
/// use redstartgilt::{selected_inverse_entries_whole, Error, SparseSymmetricPattern, WholeFactor};
///
/// let requested = SparseSymmetricPattern::diagonal(2);
/// let factor = WholeFactor::new(2, vec![0, 2, 3], vec![0, 1, 1], vec![1, -3, 1])?;
/// let inverse = selected_inverse_entries_whole(&factor, &requested)?.inverse.unwrap();
/// assert_eq!(inverse.diag(), [Some(10), Some(1)]);
/// assert_eq!(inverse.get(0, 1), Some(3));
///
/// // The square of 2^27 is beyond 2^53.
/// let steep = WholeFactor::new(2, vec![0, 2, 3], vec![0, 1, 1], vec![1, 1 << 27, 1])?;
/// let refused = selected_inverse_entries_whole(&steep, &requested);
/// assert_eq!(refused, Err(Error::NumberTooLarge));
/// # Ok::<(), redstartgilt::Error>(())
/// ```
pub fn selected_inverse_entries_whole(
    factor: &WholeFactor,
    requested: &SparseSymmetricPattern,
) -> Result<SelectedInverseEntries<WholeSelectedInverse>, Error> {
    selected_inverse_entries_whole_in(factor, requested, &mut Workspace::new())
}

/// [`selected_inverse_entries_whole`] with memory that is used again.
pub fn selected_inverse_entries_whole_in(
    factor: &WholeFactor,
    requested: &SparseSymmetricPattern,
    workspace: &mut Workspace,
) -> Result<SelectedInverseEntries<WholeSelectedInverse>, Error> {
    let n = factor.dimension();
    let (rows, columns) = requested.request_lists();
    let (result, scratch, work) = workspace.lend_whole(n, default_limit(factor.nnz()));
    let diagnostics = lent::selected_inverse_entries_whole(
        factor.lists(),
        requested.dimension,
        &rows,
        &columns,
        result,
        scratch,
        work,
    )?;
    Ok(answer(n, diagnostics, workspace))
}

/// The exact entries at the requested pairs, and at all pairs that the recurrence needs for them, if they are at most
/// `closure_limit`.
///
/// Refuses as [`selected_inverse_entries_whole`] does. Above the limit no size is looked at:
///
/// ```
/// use redstartgilt::{selected_inverse_entries_whole_with_limit, SparseSymmetricPattern, WholeFactor};
///
/// let factor = WholeFactor::new(2, vec![0, 2, 3], vec![0, 1, 1], vec![1, i64::MIN, 1])?;
/// let selected = selected_inverse_entries_whole_with_limit(&factor, &SparseSymmetricPattern::diagonal(2), 2)?;
/// assert!(selected.inverse.is_none());
/// # Ok::<(), redstartgilt::Error>(())
/// ```
pub fn selected_inverse_entries_whole_with_limit(
    factor: &WholeFactor,
    requested: &SparseSymmetricPattern,
    closure_limit: usize,
) -> Result<SelectedInverseEntries<WholeSelectedInverse>, Error> {
    selected_inverse_entries_whole_with_limit_in(factor, requested, closure_limit, &mut Workspace::new())
}

/// [`selected_inverse_entries_whole_with_limit`] with memory that is used again.
pub fn selected_inverse_entries_whole_with_limit_in(
    factor: &WholeFactor,
    requested: &SparseSymmetricPattern,
    closure_limit: usize,
    workspace: &mut Workspace,
) -> Result<SelectedInverseEntries<WholeSelectedInverse>, Error> {
    let n = factor.dimension();
    let (rows, columns) = requested.request_lists();
    let (result, scratch, work) = workspace.lend_whole(n, closure_limit);
    let diagnostics = lent::selected_inverse_entries_whole_with_limit(
        factor.lists(),
        requested.dimension,
        &rows,
        &columns,
        closure_limit,
        result,
        scratch,
        work,
    )?;
    Ok(answer(n, diagnostics, workspace))
}

fn answer(
    n: usize,
    diagnostics: SelectedInverseDiagnostics,
    workspace: &Workspace,
) -> SelectedInverseEntries<WholeSelectedInverse> {
    let inverse = diagnostics.is_complete().then(|| {
        let columns = workspace.filled_whole(n, diagnostics.closure_pairs);
        WholeSelectedInverse { columns }
    });
    SelectedInverseEntries { inverse, diagnostics }
}
