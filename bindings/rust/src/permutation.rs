//! Permutations between original order and factor order.

use crate::index::{indices, words};
use crate::lent;
use crate::marks;
use crate::Error;

/// A permutation with its inverse.
///
/// `orig_to_perm[i]` is the place of cell i in factor order, `perm_to_orig[k]` the cell at place k of factor order.
///
/// ```
/// use redstartgilt::{Error, Permutation};
///
/// let permutation = Permutation::from_orig_to_perm(vec![2, 0, 1])?;
/// assert_eq!(permutation.perm_to_orig, [1, 2, 0]);
/// permutation.validate()?;
/// assert_eq!(Permutation::from_orig_to_perm(vec![0, 0, 9]), Err(Error::DuplicateEntry));
/// # Ok::<(), redstartgilt::Error>(())
/// ```
#[derive(Debug, Clone, PartialEq, Eq)]
pub struct Permutation {
    /// The place in factor order of each cell.
    pub orig_to_perm: Vec<usize>,
    /// The cell at each place of factor order.
    pub perm_to_orig: Vec<usize>,
}

impl Permutation {
    /// A permutation with its inverse; refuses as [`validate`](Self::validate) does.
    pub fn new(orig_to_perm: Vec<usize>, perm_to_orig: Vec<usize>) -> Result<Self, Error> {
        let permutation = Self {
            orig_to_perm,
            perm_to_orig,
        };
        permutation.validate()?;
        Ok(permutation)
    }

    /// The permutation that moves nothing.
    pub fn identity(dimension: usize) -> Self {
        let cells = (0..dimension).collect::<Vec<_>>();
        Self {
            orig_to_perm: cells.clone(),
            perm_to_orig: cells,
        }
    }

    /// The permutation of one list, its inverse computed.
    ///
    /// Refuses with [`Error::TooLarge`], then with [`Error::IndexTooLarge`] or [`Error::DuplicateEntry`], whichever
    /// fault comes first in the list.
    pub fn from_orig_to_perm(orig_to_perm: Vec<usize>) -> Result<Self, Error> {
        Self::from_words(&words(&orig_to_perm))
    }

    pub(crate) fn from_words(orig_to_perm: &[u32]) -> Result<Self, Error> {
        let mut perm_to_orig = vec![0; orig_to_perm.len()];
        lent::from_orig_to_perm(orig_to_perm, &mut perm_to_orig)?;
        Ok(Self {
            orig_to_perm: indices(orig_to_perm),
            perm_to_orig: indices(&perm_to_orig),
        })
    }

    /// The number of cells.
    pub fn dimension(&self) -> usize {
        self.orig_to_perm.len()
    }

    /// Checks that both lists are permutations and each other's inverses.
    ///
    /// Refuses with [`Error::TooLarge`], with [`Error::NotInverse`] for unequal lengths, then with
    /// [`Error::IndexTooLarge`], [`Error::DuplicateEntry`] or [`Error::NotInverse`], whichever fault comes first.
    pub fn validate(&self) -> Result<(), Error> {
        lent::validate(&words(&self.orig_to_perm), &words(&self.perm_to_orig))
    }

    /// Values in factor order put in original order: place i gets `input[orig_to_perm[i]]`.
    ///
    /// Refuses with [`Error::TooLarge`], with [`Error::DimensionMismatch`] for a vector of another length, then as
    /// [`from_orig_to_perm`](Self::from_orig_to_perm) does.
    ///
    /// ```
    /// use redstartgilt::Permutation;
    ///
    /// let permutation = Permutation::from_orig_to_perm(vec![2, 0, 1])?;
    /// assert_eq!(permutation.permute_factor_to_original(&[10.0, -20.0, 30.0])?, [30.0, 10.0, -20.0]);
    /// # Ok::<(), redstartgilt::Error>(())
    /// ```
    pub fn permute_factor_to_original(&self, input: &[f64]) -> Result<Vec<f64>, Error> {
        let mut output = vec![0.0; self.dimension()];
        lent::permute_factor_to_original(&words(&self.orig_to_perm), input, &mut output)?;
        Ok(output)
    }

    /// The same for values that are not all there, as [`SparseSelectedInverse::diag`](crate::SparseSelectedInverse::diag)
    /// gives them: a value and that it is there are moved together.
    ///
    /// Refuses as [`permute_factor_to_original`](Self::permute_factor_to_original) does.
    ///
    /// ```
    /// use redstartgilt::Permutation;
    ///
    /// let permutation = Permutation::from_orig_to_perm(vec![2, 0, 1])?;
    /// let moved = permutation.permute_factor_to_original_marked(&[Some(10.0), None, Some(0.0)])?;
    /// assert_eq!(moved, [Some(0.0), Some(10.0), None]);
    /// # Ok::<(), redstartgilt::Error>(())
    /// ```
    pub fn permute_factor_to_original_marked(&self, input: &[Option<f64>]) -> Result<Vec<Option<f64>>, Error> {
        marks::permuted(&words(&self.orig_to_perm), input)
    }
}
