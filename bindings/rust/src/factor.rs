//! A sparse Cholesky factor in compressed columns.

use crate::columns::Columns;
use crate::index::{word, words};
use crate::lent::{self, FactorLists};
use crate::marks;
use crate::{Error, Permutation};

/// A sparse lower factor L in compressed columns, with the permutation that its order comes from.
///
/// Entries above the diagonal and entries of 0.0 of either sign are dropped by every call: L means the others. They
/// count as stored entries, so they raise the default limit.
///
/// Its lists are checked when it is made, and that the entries of L are finite. That each column has a diagonal entry
/// above 0.0 is checked by the calls that need it, which refuse with [`Error::NonPositiveDefinite`].
///
/// ```
/// use redstartgilt::CholeskyFactor;
///
/// // Columns (1, 2, 3), (·, 1, ·) and (·, ·, 1).
/// let columns = CholeskyFactor::new(
///     3,
///     vec![0, 3, 4, 5],
///     vec![0, 1, 2, 1, 2],
///     vec![1.0, 2.0, 3.0, 1.0, 1.0],
/// )?;
/// let triplets = CholeskyFactor::from_triplets(
///     3,
///     &[(2, 2, 1.0), (0, 0, 1.0), (2, 0, 3.0), (1, 0, 2.0), (1, 1, 1.0)],
/// )?;
/// assert_eq!(columns, triplets);
/// # Ok::<(), redstartgilt::Error>(())
/// ```
#[derive(Debug, Clone, PartialEq)]
pub struct CholeskyFactor {
    columns: Columns<f64>,
    orig_to_perm: Option<Vec<u32>>,
}

/// The name that gmrf-rs has for its factor.
pub type SparseCholeskyFactor = CholeskyFactor;

impl CholeskyFactor {
    /// A factor of dimension n from its compressed columns: n + 1 starts, then for each column its row indices,
    /// ascending, and its values.
    ///
    /// Refuses with [`Error::TooLarge`], [`Error::BrokenStarts`], [`Error::BrokenRows`] and [`Error::NotFiniteEntry`],
    /// by the library's checks. Entries above the diagonal may be NaN or infinite.
    pub fn new(n: usize, starts: Vec<u32>, rows: Vec<u32>, values: Vec<f64>) -> Result<Self, Error> {
        Self::checked(Columns {
            n,
            starts,
            rows,
            values,
        })
    }

    fn checked(columns: Columns<f64>) -> Result<Self, Error> {
        lent::check_factor(columns.factor_lists())?;
        Ok(Self {
            columns,
            orig_to_perm: None,
        })
    }

    /// A factor from entries (row, column, value) in any order.
    ///
    /// Refuses as [`CholeskyFactor::new`] does; two entries at one position, or one outside the dimension, give
    /// [`Error::BrokenRows`].
    pub fn from_triplets(n: usize, triplets: &[(usize, usize, f64)]) -> Result<Self, Error> {
        Self::checked(Columns::from_triplets(n, triplets)?)
    }

    /// The factor with the permutation of its order: its row and column `orig_to_perm[i]` belong to cell i.
    ///
    /// Refuses a permutation of another dimension with [`Error::DimensionMismatch`], then as
    /// [`Permutation::validate`] does.
    ///
    /// ```
    /// use redstartgilt::{selected_inverse_diag, CholeskyFactor, Permutation};
    ///
    /// let factor = CholeskyFactor::new(2, vec![0, 2, 3], vec![0, 1, 1], vec![1.0, 2.0, 1.0])?
    ///     .with_permutation(Permutation::from_orig_to_perm(vec![1, 0])?)?;
    /// assert_eq!(selected_inverse_diag(&factor)?.values, [1.0, 5.0]);
    /// # Ok::<(), redstartgilt::Error>(())
    /// ```
    pub fn with_permutation(mut self, permutation: Permutation) -> Result<Self, Error> {
        if permutation.dimension() != self.columns.n {
            return Err(Error::DimensionMismatch);
        }
        permutation.validate()?;
        self.orig_to_perm = Some(words(&permutation.orig_to_perm));
        Ok(self)
    }

    /// The dimension n.
    pub fn dimension(&self) -> usize {
        self.columns.n
    }

    /// The number of stored entries, dropped ones counted.
    pub fn nnz(&self) -> usize {
        self.columns.values.len()
    }

    /// Where each column starts in [`rows`](Self::rows), and last their number.
    pub fn starts(&self) -> &[u32] {
        &self.columns.starts
    }

    /// Row indices, column by column, ascending.
    pub fn rows(&self) -> &[u32] {
        &self.columns.rows
    }

    /// The value of each row.
    pub fn values(&self) -> &[f64] {
        &self.columns.values
    }

    /// The permutation of the factor's order; the identity where none was given.
    pub fn permutation(&self) -> Permutation {
        match &self.orig_to_perm {
            None => Permutation::identity(self.columns.n),
            Some(orig_to_perm) => {
                Permutation::from_words(orig_to_perm).expect("it was validated when the factor was given it")
            }
        }
    }

    /// The entries (row, column, value) that are kept: on or below the diagonal and not 0.0, by column then row.
    pub fn lower_triplets(&self) -> Vec<(usize, usize, f64)> {
        self.lists().kept().collect()
    }

    /// Values in factor order put in original order.
    ///
    /// Refuses a vector of another length with [`Error::DimensionMismatch`].
    pub fn permute_factor_to_original(&self, input: &[f64]) -> Result<Vec<f64>, Error> {
        let mut output = vec![0.0; self.columns.n];
        lent::permute_factor_to_original(&self.order(), input, &mut output)?;
        Ok(output)
    }

    /// The same for values that are not all there: the variance of each cell that was computed, in original order.
    ///
    /// Refuses a list of another length with [`Error::DimensionMismatch`].
    ///
    /// ```
    /// use redstartgilt::{selected_inverse_entries, CholeskyFactor, Permutation, SparseSymmetricPattern};
    ///
    /// // Cell 0 is the factor's second column.
    /// let factor = CholeskyFactor::new(2, vec![0, 2, 3], vec![0, 1, 1], vec![1.0, 2.0, 1.0])?
    ///     .with_permutation(Permutation::from_orig_to_perm(vec![1, 0])?)?;
    /// let mut requested = SparseSymmetricPattern::new(2);
    /// requested.insert(1, 1)?;
    /// let inverse = selected_inverse_entries(&factor, &requested)?.inverse.unwrap();
    /// assert_eq!(factor.permute_factor_to_original_marked(&inverse.diag())?, [Some(1.0), None]);
    /// # Ok::<(), redstartgilt::Error>(())
    /// ```
    pub fn permute_factor_to_original_marked(&self, input: &[Option<f64>]) -> Result<Vec<Option<f64>>, Error> {
        marks::permuted(&self.order(), input)
    }

    /// The factor's lists, to be lent.
    pub fn lists(&self) -> FactorLists<'_> {
        self.columns.factor_lists()
    }

    /// `orig_to_perm`, the identity where no permutation was given.
    pub(crate) fn order(&self) -> Vec<u32> {
        match &self.orig_to_perm {
            Some(orig_to_perm) => orig_to_perm.clone(),
            None => (0..self.columns.n).map(word).collect(),
        }
    }

    pub(crate) fn is_permuted(&self) -> bool {
        self.orig_to_perm.is_some()
    }
}
