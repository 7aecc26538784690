//! Whether the proved theorem on exact entries covers a call: a program's check of the theorem's hypotheses.
//!
//! The theorem is proved of the library. That a call meets its hypotheses is found here by the recurrence in exact numbers;
//! this code is tested, and not proved. It takes nothing from the library's own calls.

mod fraction;

pub use fraction::{ExactFault, Fraction};

use crate::{CholeskyFactor, Error, SparseSymmetricPattern, MAX_ENTRIES};
use std::fmt::{self, Display, Formatter};

/// The largest scale of the theorem.
pub const MAX_SCALE: u32 = 53;

/// The largest size of a multiplier.
const MAX_MULTIPLIER: i64 = 1 << 53;

/// A number that the theorem asks about.
#[derive(Debug, Clone, Copy, PartialEq, Eq)]
pub enum ExactStep {
    /// An entry of the factor that is kept, at the row and the column told. Its multiplier may be of any size.
    FactorEntry,
    /// A product for the entry told: the factor's entry in this row of the entry's column, times an entry of the inverse.
    Product(usize),
    /// The sum S or S' for the entry told, after the product of the factor's entry in this row.
    Sum(usize),
    /// d·d, of the factor's diagonal d in the column told.
    Square,
    /// 1 / (d·d).
    Reciprocal,
    /// −S / d, which is the entry told; on the diagonal S' / d.
    Quotient,
    /// The entry told, which is on the diagonal: 1 / (d·d) − S' / d.
    Entry,
}

/// A number for which the theorem does not cover a call.
#[derive(Debug, Clone, Copy, PartialEq, Eq)]
pub struct Uncovered {
    /// The scale s.
    pub scale: u32,
    /// What number it is.
    pub step: ExactStep,
    /// The row of the entry that it is, or that it is computed for.
    pub row: usize,
    /// The column of that entry.
    pub column: usize,
    /// Its exact value, which does not depend on the scale.
    pub value: Fraction,
    /// Why it is not covered.
    pub fault: ExactFault,
}

/// Why the theorem on exact entries does not cover a call.
#[derive(Debug, Clone, PartialEq)]
pub enum NotExact {
    /// The call is refused, whatever its limit.
    Refused(Error),
    /// The scale is above [`MAX_SCALE`].
    ScaleTooLarge(u32),
    /// Of the scale that was given, this number is the first that is not covered.
    Uncovered(Uncovered),
    /// No scale will do: this number is covered by none, or not by the least that another one needs.
    NoScale {
        /// The number.
        uncovered: Uncovered,
        /// The other one, which no smaller scale covers.
        needs: Option<Box<Uncovered>>,
    },
}

/// The exact entries of the inverse at the pairs of a closed set, by their multipliers: an entry is multiplier / 2^scale.
#[derive(Debug, Clone, PartialEq, Eq)]
pub struct ExactMultipliers {
    n: usize,
    scale: u32,
    marks: Vec<bool>,
    multipliers: Vec<i64>,
}

/// Checks that the theorem on exact entries covers a call, with one scale s from 0 to 53.
///
/// It does where every kept entry of the factor is a whole multiple of 2^-s, and every exact product, sum, quotient and entry
/// of the recurrence over the closed set of the requests is one too, with a multiplier of at most 2^53 in size. Then
/// [`selected_inverse_entries_with_limit`](crate::selected_inverse_entries_with_limit) is Complete exactly when the set is
/// within the limit, and its entries are the exact entries of the inverse of L·Lᵀ, which are those told here. Where this
/// gives an error nothing is promised: the entries may be exact all the same.
///
/// Kept entries are looked at by column, then by row; then the columns from the last to the first, in each the rows below
/// the diagonal, ascending, and last the diagonal. The first number that is not covered is told.
///
/// ```
/// use redstartgilt::{exact_multipliers, selected_inverse_entries, CholeskyFactor, SparseSymmetricPattern};
///
/// // Columns (2, 6) and (4).
/// let factor = CholeskyFactor::new(2, vec![0, 2, 3], vec![0, 1, 1], vec![2.0, 6.0, 4.0])?;
/// let requested = SparseSymmetricPattern::diagonal(2);
/// let exact = exact_multipliers(&factor, &requested, 4).unwrap();
/// assert_eq!(exact.get(0, 0), Some(13));
/// let inverse = selected_inverse_entries(&factor, &requested)?.inverse.unwrap();
/// assert_eq!(inverse.get(0, 0), Some(13.0 / 16.0));
///
/// let uncovered = exact_multipliers(&factor, &requested, 3).unwrap_err();
/// assert_eq!(
///     uncovered.to_string(),
///     "entry (1, 1) of the inverse: 1/(d*d), d being the factor's diagonal, is 1/16, no whole multiple of 2^-3"
/// );
/// # Ok::<(), redstartgilt::Error>(())
/// ```
pub fn exact_multipliers(
    factor: &CholeskyFactor,
    requested: &SparseSymmetricPattern,
    scale: u32,
) -> Result<ExactMultipliers, NotExact> {
    if scale > MAX_SCALE {
        return Err(NotExact::ScaleTooLarge(scale));
    }
    let exact = Exact::new(factor, requested).map_err(NotExact::Refused)?;
    exact.covered(scale).map_err(NotExact::Uncovered)
}

/// The same with the least scale that covers the call.
///
/// ```
/// use redstartgilt::{least_exact_multipliers, CholeskyFactor, SparseSymmetricPattern};
///
/// let factor = CholeskyFactor::new(2, vec![0, 2, 3], vec![0, 1, 1], vec![2.0, 6.0, 4.0])?;
/// let exact = least_exact_multipliers(&factor, &SparseSymmetricPattern::diagonal(2)).unwrap();
/// assert_eq!(exact.scale(), 4);
/// # Ok::<(), redstartgilt::Error>(())
/// ```
pub fn least_exact_multipliers(
    factor: &CholeskyFactor,
    requested: &SparseSymmetricPattern,
) -> Result<ExactMultipliers, NotExact> {
    let exact = Exact::new(factor, requested).map_err(NotExact::Refused)?;
    let (mut scale, mut needs) = (0, None);
    loop {
        let uncovered = match exact.covered(scale) {
            Ok(multipliers) => return Ok(multipliers),
            Err(uncovered) => uncovered,
        };
        // A multiplier that is too large is so at every larger scale.
        let least = match uncovered.fault {
            ExactFault::NoMultiple => uncovered.value.least_scale().filter(|least| *least <= MAX_SCALE),
            ExactFault::MultiplierTooLarge => None,
        };
        match least {
            Some(least) => (scale, needs) = (least, Some(Box::new(uncovered))),
            None => {
                let needs = needs.filter(|_| uncovered.fault == ExactFault::MultiplierTooLarge);
                return Err(NotExact::NoScale { uncovered, needs });
            }
        }
    }
}

fn place(row: usize, column: usize) -> usize {
    let (row, column) = (row.max(column), row.min(column));
    row * (row + 1) / 2 + column
}

/// A factor in exact numbers, and the closed set of a call's requests.
struct Exact {
    diagonals: Vec<Fraction>,
    /// The other kept entries of each column, ascending.
    below: Vec<Vec<(usize, Fraction)>>,
    marks: Vec<bool>,
}

impl Exact {
    /// Refuses as the call does.
    fn new(factor: &CholeskyFactor, requested: &SparseSymmetricPattern) -> Result<Self, Error> {
        let n = factor.dimension();
        if requested.pairs.len() > MAX_ENTRIES {
            return Err(Error::TooLarge);
        }
        if requested.dimension != n {
            return Err(Error::DimensionMismatch);
        }
        if requested.pairs.iter().any(|(row, column)| *row >= n || *column >= n) {
            return Err(Error::RequestOutOfRange);
        }
        let (mut diagonals, mut below) = (vec![None; n], vec![Vec::new(); n]);
        for (row, column, value) in factor.lists().kept() {
            if row > column {
                below[column].push((row, Fraction::of(value)));
            } else if value > 0.0 {
                diagonals[column] = Some(Fraction::of(value));
            }
        }
        let diagonals = diagonals
            .into_iter()
            .collect::<Option<_>>()
            .ok_or(Error::NonPositiveDefinite)?;
        let mut exact = Self {
            diagonals,
            below,
            marks: vec![false; n * (n + 1) / 2],
        };
        exact.close(requested);
        Ok(exact)
    }

    /// Marks the least closed set of the requests. A pair needs pairs of later columns, or of later rows of its own column,
    /// so one sweep finds it.
    fn close(&mut self, requested: &SparseSymmetricPattern) {
        let n = self.below.len();
        for (row, column) in &requested.pairs {
            self.marks[place(*row, *column)] = true;
        }
        for column in 0..n {
            for row in column..n {
                if self.marks[place(row, column)] {
                    for (descendant, _) in &self.below[column] {
                        self.marks[place(row, *descendant)] = true;
                    }
                }
            }
        }
    }

    /// The recurrence with one scale.
    fn covered(&self, scale: u32) -> Result<ExactMultipliers, Uncovered> {
        let n = self.below.len();
        for column in 0..n {
            let diagonal = std::iter::once((column, self.diagonals[column]));
            for (row, value) in diagonal.chain(self.below[column].iter().copied()) {
                if !value.is_multiple(scale) {
                    return Err(Uncovered {
                        scale,
                        step: ExactStep::FactorEntry,
                        row,
                        column,
                        value,
                        fault: ExactFault::NoMultiple,
                    });
                }
            }
        }
        let mut multipliers = vec![0; self.marks.len()];
        for column in (0..n).rev() {
            // The rows below the diagonal, then the diagonal.
            for row in (column + 1..n).chain([column]) {
                if self.marks[place(row, column)] {
                    let at = Place {
                        exact: self,
                        scale,
                        row,
                        column,
                    };
                    multipliers[place(row, column)] = at.entry(&multipliers)?;
                }
            }
        }
        Ok(ExactMultipliers {
            n,
            scale,
            marks: self.marks.clone(),
            multipliers,
        })
    }
}

/// An entry of the set that is computed.
struct Place<'a> {
    exact: &'a Exact,
    scale: u32,
    row: usize,
    column: usize,
}

impl Place<'_> {
    /// The multiplier of a number, if it is covered.
    fn covered(&self, step: ExactStep, value: Fraction) -> Result<i64, Uncovered> {
        value.multiplier(self.scale).map_err(|fault| Uncovered {
            scale: self.scale,
            step,
            row: self.row,
            column: self.column,
            value,
            fault,
        })
    }

    fn multiple(&self, multiplier: i64) -> Fraction {
        Fraction::multiple(multiplier, self.scale)
    }

    /// S or S', in the library's order.
    fn sum(&self, multipliers: &[i64]) -> Result<i64, Uncovered> {
        let mut sum = 0;
        for (k, value) in &self.exact.below[self.column] {
            let product = value.times(self.multiple(multipliers[place(self.row, *k)]));
            sum += self.covered(ExactStep::Product(*k), product)?;
            self.covered(ExactStep::Sum(*k), self.multiple(sum))?;
        }
        Ok(sum)
    }

    /// The entry, those that it needs being known.
    fn entry(&self, multipliers: &[i64]) -> Result<i64, Uncovered> {
        let sum = self.sum(multipliers)?;
        let d = self.exact.diagonals[self.column];
        if self.row > self.column {
            return self.covered(ExactStep::Quotient, self.multiple(-sum).over(d));
        }
        let square = d.times(d);
        self.covered(ExactStep::Square, square)?;
        let reciprocal = self.covered(ExactStep::Reciprocal, Fraction::of(1.0).over(square))?;
        let quotient = self.covered(ExactStep::Quotient, self.multiple(sum).over(d))?;
        self.covered(ExactStep::Entry, self.multiple(reciprocal - quotient))
    }
}

impl ExactMultipliers {
    /// The scale s.
    pub fn scale(&self) -> u32 {
        self.scale
    }

    /// The multiplier of the entry at a pair, in either order; `None` for a pair that is not in the closed set.
    pub fn get(&self, row: usize, column: usize) -> Option<i64> {
        if row >= self.n || column >= self.n {
            return None;
        }
        let place = place(row, column);
        self.marks[place].then(|| self.multipliers[place])
    }
}

impl Uncovered {
    /// What number it is, with its value; rows and columns are counted from `first`.
    fn number(&self, first: usize) -> String {
        let pair = |row: usize, column: usize| format!("({}, {})", row + first, column + first);
        let (entry, value) = (pair(self.row, self.column), self.value);
        let on_diagonal = self.row == self.column;
        match self.step {
            ExactStep::FactorEntry => format!("entry {entry} of the factor is {value}"),
            ExactStep::Product(k) => format!(
                "entry {entry} of the inverse: the product of entry {} of the factor and entry {} of the inverse is {value}",
                pair(k, self.column),
                pair(self.row.max(k), self.row.min(k))
            ),
            ExactStep::Sum(k) => format!(
                "entry {entry} of the inverse: the sum up to the product with entry {} of the factor is {value}",
                pair(k, self.column)
            ),
            ExactStep::Square => format!("entry {entry} of the inverse: d*d, d being the factor's diagonal, is {value}"),
            ExactStep::Reciprocal => {
                format!("entry {entry} of the inverse: 1/(d*d), d being the factor's diagonal, is {value}")
            }
            ExactStep::Quotient if on_diagonal => {
                format!("entry {entry} of the inverse: the sum over the factor's diagonal is {value}")
            }
            ExactStep::Quotient | ExactStep::Entry => format!("entry {entry} of the inverse is {value}"),
        }
    }

    /// The number, and why it is not covered.
    fn told_from(&self, first: usize) -> String {
        let number = self.number(first);
        match (self.fault, self.scale) {
            (ExactFault::NoMultiple, 0) => format!("{number}, no whole number"),
            (ExactFault::NoMultiple, scale) => format!("{number}, no whole multiple of 2^-{scale}"),
            (ExactFault::MultiplierTooLarge, 0) => format!("{number}, beyond 2^53 in size"),
            (ExactFault::MultiplierTooLarge, scale) => {
                format!("{number}, and its multiplier of 2^-{scale} is beyond 2^53 in size")
            }
        }
    }
}

impl NotExact {
    /// The reason in words, rows and columns counted from `first`.
    pub fn told_from(&self, first: usize) -> String {
        match self {
            NotExact::Refused(error) => error.to_string(),
            NotExact::ScaleTooLarge(scale) => format!("the scale {scale} is above {MAX_SCALE}"),
            NotExact::Uncovered(uncovered) => uncovered.told_from(first),
            NotExact::NoScale { uncovered, needs: None } if uncovered.fault == ExactFault::NoMultiple => {
                let number = uncovered.number(first);
                format!("{number}, a whole multiple of 2^-s for no s from 0 to {MAX_SCALE}")
            }
            NotExact::NoScale { uncovered, needs: None } => uncovered.told_from(first),
            NotExact::NoScale {
                uncovered,
                needs: Some(needs),
            } => {
                let (told, scale) = (uncovered.told_from(first), uncovered.scale);
                format!("{told}; and s must be at least {scale}: {}", needs.number(first))
            }
        }
    }
}

impl Display for NotExact {
    fn fmt(&self, f: &mut Formatter<'_>) -> fmt::Result {
        f.write_str(&self.told_from(0))
    }
}

impl std::error::Error for NotExact {}
