//! A precision matrix Q, against which a factor is held.

mod difference;
mod product;

pub use difference::{FactorMismatch, PrecisionDifference};

use crate::columns::Columns;
use crate::index::indices;
use crate::lent;
use crate::{CholeskyFactor, Error, LdlFactor, Permutation, WholeFactor};
use difference::{Comparison, WholeComparison};
use product::Lower;
use std::fmt::{self, Display, Formatter};

/// A precision matrix Q: symmetric, its lower triangle in compressed columns, rows and columns in the order of the cells.
///
/// It is what a factor is held against, by [`CholeskyFactor::check_against`] and [`LdlFactor::check_against`]. That it is
/// positive definite is not looked at.
///
/// ```
/// use redstartgilt::{Precision, PrecisionError};
///
/// // The matrix (4, 8; 8, 17).
/// let columns = Precision::new(2, vec![0, 2, 3], vec![0, 1, 1], vec![4.0, 8.0, 17.0])?;
/// assert_eq!(columns, Precision::from_triplets(2, &[(1, 1, 17.0), (0, 0, 4.0), (1, 0, 8.0)])?);
///
/// // Of the two triangles the lower one is given.
/// let upper = Precision::from_triplets(2, &[(0, 0, 4.0), (0, 1, 8.0), (1, 1, 17.0)]);
/// assert_eq!(upper, Err(PrecisionError::AboveDiagonal { row: 0, column: 1 }));
/// # Ok::<(), PrecisionError>(())
/// ```
#[derive(Debug, Clone, PartialEq)]
pub struct Precision {
    columns: Columns<f64>,
}

/// A precision matrix of whole numbers, for [`WholeFactor::check_against`]; otherwise a [`Precision`].
///
/// ```
/// use redstartgilt::{PrecisionError, WholePrecision};
///
/// let columns = WholePrecision::new(2, vec![0, 2, 3], vec![0, 1, 1], vec![1, -3, 10])?;
/// assert_eq!(columns, WholePrecision::from_triplets(2, &[(0, 0, 1), (1, 0, -3), (1, 1, 10)])?);
/// # Ok::<(), PrecisionError>(())
/// ```
#[derive(Debug, Clone, PartialEq)]
pub struct WholePrecision {
    columns: Columns<i64>,
}

/// Why lists are not the lower triangle of a precision matrix.
#[derive(Debug, Clone, Copy, PartialEq, Eq)]
pub enum PrecisionError {
    /// [`Error::TooLarge`], [`Error::BrokenStarts`] or [`Error::BrokenRows`], by the library's checks of a factor's lists.
    Refused(Error),
    /// An entry above the diagonal, whatever its value.
    AboveDiagonal {
        /// Its row.
        row: usize,
        /// Its column.
        column: usize,
    },
    /// An entry that is NaN or infinite.
    NotFinite {
        /// Its row.
        row: usize,
        /// Its column.
        column: usize,
    },
}

impl Display for PrecisionError {
    fn fmt(&self, f: &mut Formatter<'_>) -> fmt::Result {
        match self {
            PrecisionError::Refused(error) => error.fmt(f),
            PrecisionError::AboveDiagonal { row, column } => write!(
                f,
                "entry ({row}, {column}) is above the diagonal, and the lower triangle of Q is to be given"
            ),
            PrecisionError::NotFinite { row, column } => write!(f, "entry ({row}, {column}) of Q is not finite"),
        }
    }
}

impl std::error::Error for PrecisionError {}

/// The first entry above the diagonal, of lists that pass the library's checks.
fn lower<V: lent::Number>(columns: &Columns<V>) -> Result<(), PrecisionError> {
    match columns.entries().find(|(row, column, _)| row < column) {
        Some((row, column, _)) => Err(PrecisionError::AboveDiagonal { row, column }),
        None => Ok(()),
    }
}

impl Precision {
    /// A matrix of dimension n from the compressed columns of its lower triangle: n + 1 starts, then for each column its
    /// row indices, ascending, and its values.
    ///
    /// Refuses lists as [`CholeskyFactor::new`] does, then an entry that is not finite or above the diagonal.
    pub fn new(n: usize, starts: Vec<u32>, rows: Vec<u32>, values: Vec<f64>) -> Result<Self, PrecisionError> {
        Self::checked(Columns {
            n,
            starts,
            rows,
            values,
        })
    }

    /// A matrix from the entries (row, column, value) of its lower triangle, in any order.
    ///
    /// Refuses as [`Precision::new`] does; two entries at one position, or one outside the dimension, give
    /// [`Error::BrokenRows`].
    pub fn from_triplets(n: usize, triplets: &[(usize, usize, f64)]) -> Result<Self, PrecisionError> {
        Self::checked(Columns::from_triplets(n, triplets).map_err(PrecisionError::Refused)?)
    }

    fn checked(columns: Columns<f64>) -> Result<Self, PrecisionError> {
        lent::check_factor(columns.factor_lists()).map_err(|error| match error {
            Error::NotFiniteEntry(Some((row, column))) => PrecisionError::NotFinite { row, column },
            _ => PrecisionError::Refused(error),
        })?;
        lower(&columns)?;
        Ok(Self { columns })
    }

    /// The dimension n.
    pub fn dimension(&self) -> usize {
        self.columns.n
    }

    /// Where each column starts in [`rows`](Self::rows), and last their number.
    pub fn starts(&self) -> &[u32] {
        &self.columns.starts
    }

    /// Row indices, column by column, ascending.
    pub fn rows(&self) -> &[u32] {
        &self.columns.rows
    }

    /// The value of each row.
    pub fn values(&self) -> &[f64] {
        &self.columns.values
    }

    /// The entries (row, column, value) of the lower triangle, by column then row.
    pub fn entries(&self) -> impl Iterator<Item = (usize, usize, f64)> + '_ {
        self.columns.entries()
    }
}

impl WholePrecision {
    /// A matrix of dimension n from the compressed columns of its lower triangle; refuses as [`Precision::new`] does.
    pub fn new(n: usize, starts: Vec<u32>, rows: Vec<u32>, values: Vec<i64>) -> Result<Self, PrecisionError> {
        Self::checked(Columns {
            n,
            starts,
            rows,
            values,
        })
    }

    /// A matrix from the entries (row, column, value) of its lower triangle; refuses as [`Precision::from_triplets`] does.
    pub fn from_triplets(n: usize, triplets: &[(usize, usize, i64)]) -> Result<Self, PrecisionError> {
        Self::checked(Columns::from_triplets(n, triplets).map_err(PrecisionError::Refused)?)
    }

    fn checked(columns: Columns<i64>) -> Result<Self, PrecisionError> {
        lent::check_whole_factor(columns.factor_lists()).map_err(PrecisionError::Refused)?;
        lower(&columns)?;
        Ok(Self { columns })
    }

    /// The dimension n.
    pub fn dimension(&self) -> usize {
        self.columns.n
    }

    /// The entries (row, column, value) of the lower triangle, by column then row.
    pub fn entries(&self) -> impl Iterator<Item = (usize, usize, i64)> + '_ {
        self.columns.entries()
    }
}

/// That a factor and a matrix are of one dimension.
fn same_dimension(factor: usize, precision: usize) -> Result<(), Error> {
    if factor == precision {
        Ok(())
    } else {
        Err(Error::DimensionMismatch)
    }
}

impl CholeskyFactor {
    /// Checks that L·Lᵀ is Q within rounding, in the order of the factor's permutation.
    ///
    /// Every entry (i, j) of either matrix counts, also where only one of them stores it. With u = 2^-53, the k products
    /// l(i, m)·l(j, m) other than 0 of which L·Lᵀ has it, and s the sum of their sizes, the two numbers may differ by
    ///
    /// > 2·(k + 128)·u·s + 2·(k + 1)·2^-1074·max(1, l(j, j))
    ///
    /// A factorisation in 64-bit floats, in any order of its sums, gives an L with |L·Lᵀ − Q| ≤ γ(k + 1)·s at each entry
    /// (Higham, *Accuracy and Stability of Numerical Algorithms*, theorem 10.3), and the sum of this check has γ(k)·s more,
    /// γ(k) being k·u / (1 − k·u). The rest of the first term is for numbers that went through text: written with 15 digits
    /// or more, a number is within 45·u of itself, which is 90·u·s for the two of a product and 45·u·|q(i, j)| for Q; and
    /// for a factor that was made of another form, as L·√D is. The second term is for products below the least float.
    ///
    /// What passes is the exact factor of a matrix that differs from Q by no more than factorising in floats makes it
    /// differ. How much that means for a variance depends on the condition of Q.
    ///
    /// Refuses a matrix of another dimension with [`Error::DimensionMismatch`].
    ///
    /// ```
    /// use redstartgilt::{CholeskyFactor, FactorMismatch, Precision, PrecisionDifference};
    ///
    /// let precision = Precision::from_triplets(2, &[(0, 0, 4.0), (1, 0, 8.0), (1, 1, 17.0)])?;
    /// let factor = CholeskyFactor::from_triplets(2, &[(0, 0, 2.0), (1, 0, 4.0), (1, 1, 1.0)])?;
    /// factor.check_against(&precision)?;
    ///
    /// // Of the upper factor everything below the diagonal is missing.
    /// let upper = CholeskyFactor::from_triplets(2, &[(0, 0, 2.0), (0, 1, 4.0), (1, 1, 1.0)])?;
    /// let Err(FactorMismatch::Differs(difference)) = upper.check_against(&precision) else { unreachable!() };
    /// let PrecisionDifference { row, column, product, precision, bound } = difference;
    /// assert_eq!((row, column, product, precision), (1, 0, 0.0, 8.0));
    /// assert!(bound < 1e-300);
    /// # Ok::<(), Box<dyn std::error::Error>>(())
    /// ```
    pub fn check_against(&self, precision: &Precision) -> Result<(), FactorMismatch> {
        same_dimension(self.dimension(), precision.dimension()).map_err(FactorMismatch::Refused)?;
        let lower = Lower::new(self.dimension(), self.lower_triplets());
        let comparison = Comparison {
            lower: &lower,
            pivots: None,
        };
        comparison.run(precision.entries(), &indices(&self.order()))
    }

    /// Whether the factor looks like L of L·D·Lᵀ with D in the place of its ones, as CHOLMOD stores one; a hint, and no
    /// proof.
    ///
    /// A sparse matrix has entries of 0.0 where its factor has others: there the products of the right form cancel. This is
    /// `true` where they cancel nowhere as L·Lᵀ, but somewhere as L·D·Lᵀ. Where nothing fills in, nothing can be told, and
    /// it is `false`.
    ///
    /// ```
    /// use redstartgilt::CholeskyFactor;
    ///
    /// // Q has columns (4, 2, 2), (·, 2, 0) and (·, ·, 4.5), which L·D·Lᵀ is with D = (4, 1, 2.5).
    /// let entries = [(0, 0, 4.0), (1, 0, 0.5), (2, 0, 0.5), (1, 1, 1.0), (2, 1, -1.0), (2, 2, 2.5)];
    /// assert!(CholeskyFactor::from_triplets(3, &entries)?.looks_like_pivots_on_diagonal());
    /// let entries = [(0, 0, 2.0), (1, 0, 1.0), (2, 0, 1.0), (1, 1, 1.0), (2, 1, -1.0), (2, 2, 1.5)];
    /// assert!(!CholeskyFactor::from_triplets(3, &entries)?.looks_like_pivots_on_diagonal());
    /// # Ok::<(), redstartgilt::Error>(())
    /// ```
    pub fn looks_like_pivots_on_diagonal(&self) -> bool {
        let mut entries = self.lower_triplets();
        let lower = Lower::new(self.dimension(), entries.clone());
        let comparison = Comparison {
            lower: &lower,
            pivots: None,
        };
        if comparison.cancels() {
            return false;
        }
        let mut pivots = vec![0.0; self.dimension()];
        for (row, column, value) in &mut entries {
            if row == column {
                pivots[*column] = std::mem::replace(value, 1.0);
            }
        }
        let lower = Lower::new(self.dimension(), entries);
        let comparison = Comparison {
            lower: &lower,
            pivots: Some(&pivots),
        };
        comparison.cancels()
    }
}

impl LdlFactor {
    /// Checks that L·D·Lᵀ is Q within rounding, in the order of the factor's permutation: as
    /// [`CholeskyFactor::check_against`] does, with the pivot as a third factor of each product, and in the place of l(j, j).
    ///
    /// ```
    /// use redstartgilt::{FactorMismatch, LdlFactor, Precision};
    ///
    /// let precision = Precision::from_triplets(2, &[(0, 0, 4.0), (1, 0, 8.0), (1, 1, 17.0)])?;
    /// LdlFactor::from_triplets(2, &[(1, 0, 2.0)], vec![4.0, 1.0])?.check_against(&precision)?;
    ///
    /// // Pivots in another order.
    /// let swapped = LdlFactor::from_triplets(2, &[(1, 0, 2.0)], vec![1.0, 4.0])?;
    /// assert!(matches!(swapped.check_against(&precision), Err(FactorMismatch::Differs(_))));
    /// # Ok::<(), Box<dyn std::error::Error>>(())
    /// ```
    pub fn check_against(&self, precision: &Precision) -> Result<(), FactorMismatch> {
        let n = self.dimension();
        same_dimension(n, precision.dimension()).map_err(FactorMismatch::Refused)?;
        // The ones of the diagonal, stored or not.
        let mut entries = self.lower_triplets();
        entries.retain(|(row, column, _)| row != column);
        entries.extend((0..n).map(|cell| (cell, cell, 1.0)));
        entries.sort_by_key(|(row, column, _)| (*column, *row));
        let lower = Lower::new(n, entries);
        let comparison = Comparison {
            lower: &lower,
            pivots: Some(self.pivots()),
        };
        comparison.run(precision.entries(), &self.permutation().orig_to_perm)
    }
}

impl WholeFactor {
    /// Checks that L·Lᵀ is Q, exactly, the factor's row and column `orig_to_perm[i]` being those of cell i.
    ///
    /// Refuses a matrix or a permutation of another dimension with [`Error::DimensionMismatch`], a permutation as
    /// [`Permutation::validate`] does, and a factor with an entry beyond 2^53 in size, which has no exact answers, with
    /// [`Error::NumberTooLarge`]. Sums have 128 bits and are never rounded.
    ///
    /// ```
    /// use redstartgilt::{Permutation, WholeFactor, WholePrecision};
    ///
    /// let factor = WholeFactor::from_triplets(2, &[(0, 0, 1), (1, 0, -3), (1, 1, 1)])?;
    /// let precision = WholePrecision::from_triplets(2, &[(0, 0, 1), (1, 0, -3), (1, 1, 10)])?;
    /// factor.check_against(&precision, &Permutation::identity(2))?;
    /// let swapped = Permutation::from_orig_to_perm(vec![1, 0])?;
    /// let differs = factor.check_against(&precision, &swapped).unwrap_err();
    /// assert_eq!(differs.to_string(), "entry (1, 1) of Q is 10, but of the factor multiplied out it is 1");
    /// # Ok::<(), Box<dyn std::error::Error>>(())
    /// ```
    pub fn check_against(
        &self,
        precision: &WholePrecision,
        permutation: &Permutation,
    ) -> Result<(), FactorMismatch<i128>> {
        const LARGEST: u64 = 1 << 53;
        let n = self.dimension();
        same_dimension(n, precision.dimension())
            .and_then(|()| same_dimension(n, permutation.dimension()))
            .and_then(|()| permutation.validate())
            .map_err(FactorMismatch::Refused)?;
        let entries = self.lower_triplets();
        if entries.iter().any(|(_, _, value)| value.unsigned_abs() > LARGEST) {
            return Err(FactorMismatch::Refused(Error::NumberTooLarge));
        }
        let lower = Lower::new(n, entries);
        WholeComparison { lower: &lower }.run(precision.entries(), &permutation.orig_to_perm)
    }
}
