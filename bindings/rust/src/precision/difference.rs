//! Where the product of a factor and a precision matrix differ.

use super::product::{Lower, Totals};
use crate::Error;
use std::fmt::{self, Debug, Display, Formatter};
use std::ops::ControlFlow;

/// The entry at which a factor's product differs most from Q, measured by its bound.
#[derive(Debug, Clone, Copy, PartialEq)]
pub struct PrecisionDifference<V = f64> {
    /// The row, in the order of the cells; it is not less than the column.
    pub row: usize,
    /// The column, in the order of the cells.
    pub column: usize,
    /// The entry of L·Lᵀ, or of L·D·Lᵀ.
    pub product: V,
    /// The entry of Q.
    pub precision: V,
    /// What rounding may make them differ by; 0 in whole numbers.
    pub bound: V,
}

impl<V: Debug> PrecisionDifference<V> {
    /// What differs, in words, rows and columns counted from `first`.
    fn told_from(&self, first: usize) -> String {
        format!(
            "entry ({}, {}) of Q is {:?}, but of the factor multiplied out it is {:?}",
            self.row + first,
            self.column + first,
            self.precision,
            self.product
        )
    }
}

/// Why a factor is not that of a precision matrix.
#[derive(Debug, Clone, Copy, PartialEq)]
pub enum FactorMismatch<V = f64> {
    /// The two cannot be compared.
    Refused(Error),
    /// They differ; this is the entry that differs most.
    Differs(PrecisionDifference<V>),
}

impl FactorMismatch {
    /// What is wrong, in words, rows and columns counted from `first`.
    pub fn told_from(&self, first: usize) -> String {
        match self {
            FactorMismatch::Refused(error) => error.to_string(),
            FactorMismatch::Differs(difference) => {
                let told = difference.told_from(first);
                if difference.bound < f64::MIN_POSITIVE {
                    return format!("{told}, and rounding does not make them differ");
                }
                format!("{told}, and rounding may make them differ by {:.3e}", difference.bound)
            }
        }
    }
}

impl FactorMismatch<i128> {
    /// What is wrong, in words, rows and columns counted from `first`.
    pub fn told_from(&self, first: usize) -> String {
        match self {
            FactorMismatch::Refused(error) => error.to_string(),
            FactorMismatch::Differs(difference) => difference.told_from(first),
        }
    }
}

impl Display for FactorMismatch {
    fn fmt(&self, f: &mut Formatter<'_>) -> fmt::Result {
        f.write_str(&self.told_from(0))
    }
}

impl Display for FactorMismatch<i128> {
    fn fmt(&self, f: &mut Formatter<'_>) -> fmt::Result {
        f.write_str(&self.told_from(0))
    }
}

impl std::error::Error for FactorMismatch {}
impl std::error::Error for FactorMismatch<i128> {}

/// An entry of the product as it is summed.
#[derive(Debug, Clone, Copy, Default)]
struct Total {
    sum: f64,
    /// The sum of the sizes of its terms.
    size: f64,
    terms: f64,
}

impl Total {
    /// What rounding may make the sum differ by from an entry of Q; the factor's entry came of a division by `divisor`.
    fn bound(&self, divisor: f64) -> f64 {
        const UNIT: f64 = f64::EPSILON / 2.0;
        const LEAST: f64 = f64::from_bits(1);
        2.0 * (self.terms + 128.0) * UNIT * self.size + 2.0 * (self.terms + 1.0) * LEAST * divisor.abs().max(1.0)
    }
}

/// The columns of Q in the factor's order, each with its rows.
fn in_factor_order<V>(
    n: usize,
    entries: impl Iterator<Item = (usize, usize, V)>,
    orig_to_perm: &[usize],
) -> Vec<Vec<(usize, V)>> {
    let mut columns = (0..n).map(|_| Vec::new()).collect::<Vec<_>>();
    for (row, column, value) in entries {
        let (one, other) = (orig_to_perm[row], orig_to_perm[column]);
        columns[one.min(other)].push((one.max(other), value));
    }
    columns
}

/// Row and column in the order of the cells.
fn cells(orig_to_perm: &[usize], row: usize, column: usize) -> (usize, usize) {
    let cell = |place: usize| orig_to_perm.iter().position(|other| *other == place).unwrap_or(place);
    let (one, other) = (cell(row), cell(column));
    (one.max(other), one.min(other))
}

/// A factor in floats beside a precision matrix.
pub(super) struct Comparison<'a> {
    pub lower: &'a Lower<f64>,
    /// Those of L·D·Lᵀ.
    pub pivots: Option<&'a [f64]>,
}

impl Comparison<'_> {
    fn add(&self, total: &mut Total, [one, other]: [f64; 2], k: usize) {
        let term = one * self.pivots.map_or(other, |pivots| other * pivots[k]);
        total.sum += term;
        total.size += term.abs();
        total.terms += 1.0;
    }

    /// What the entries of a column below the diagonal are quotients by.
    fn divisor(&self, column: usize) -> f64 {
        match self.pivots {
            Some(pivots) => pivots[column],
            None => self.lower.diagonal(column).unwrap_or(0.0),
        }
    }

    /// Compares every entry of either matrix.
    pub fn run(
        &self,
        precision: impl Iterator<Item = (usize, usize, f64)>,
        orig_to_perm: &[usize],
    ) -> Result<(), FactorMismatch> {
        let n = orig_to_perm.len();
        let columns = in_factor_order(n, precision, orig_to_perm);
        let mut entries_of_q = vec![0.0; n];
        let mut worst: Option<(f64, PrecisionDifference)> = None;
        let column_of = |column: usize, totals: &mut Totals<Total>| {
            for (row, value) in &columns[column] {
                totals.at(*row);
                entries_of_q[*row] = *value;
            }
            let divisor = self.divisor(column);
            for (row, total) in totals.entries() {
                let precision = std::mem::take(&mut entries_of_q[row]);
                let (difference, bound) = ((total.sum - precision).abs(), total.bound(divisor));
                // Sums that are too large for floats are within no bound.
                if difference <= bound && bound.is_finite() {
                    continue;
                }
                let measure = if bound.is_finite() {
                    difference / bound
                } else {
                    f64::INFINITY
                };
                let is_worse = |(other, told): &(f64, PrecisionDifference)| {
                    measure > *other || measure == *other && difference > (told.product - told.precision).abs()
                };
                if worst.as_ref().is_none_or(is_worse) {
                    let differs = PrecisionDifference {
                        row,
                        column,
                        product: total.sum,
                        precision,
                        bound,
                    };
                    worst = Some((measure, differs));
                }
            }
            ControlFlow::Continue(())
        };
        self.lower.product(|total, pair, k| self.add(total, pair, k), column_of);
        match worst {
            None => Ok(()),
            Some((_, mut differs)) => {
                (differs.row, differs.column) = cells(orig_to_perm, differs.row, differs.column);
                Err(FactorMismatch::Differs(differs))
            }
        }
    }

    /// Whether an entry of the product below its diagonal is a sum of terms that cancel.
    pub fn cancels(&self) -> bool {
        let mut found = false;
        let column_of = |column: usize, totals: &mut Totals<Total>| {
            let divisor = self.divisor(column);
            let mut entries = totals.entries().filter(|(row, _)| *row > column);
            found = entries.any(|(_, total)| total.terms > 1.0 && total.sum.abs() <= total.bound(divisor));
            if found {
                ControlFlow::Break(())
            } else {
                ControlFlow::Continue(())
            }
        };
        self.lower.product(|total, pair, k| self.add(total, pair, k), column_of);
        found
    }
}

/// A factor of whole numbers, none beyond 2^53 in size, beside a precision matrix: sums of at most 4,096 products are
/// below 2^119.
pub(super) struct WholeComparison<'a> {
    pub lower: &'a Lower<i64>,
}

impl WholeComparison<'_> {
    /// Compares every entry of either matrix.
    pub fn run(
        &self,
        precision: impl Iterator<Item = (usize, usize, i64)>,
        orig_to_perm: &[usize],
    ) -> Result<(), FactorMismatch<i128>> {
        let n = orig_to_perm.len();
        let columns = in_factor_order(n, precision, orig_to_perm);
        let mut entries_of_q = vec![0; n];
        let mut worst: Option<PrecisionDifference<i128>> = None;
        let add = |total: &mut i128, [one, other]: [i64; 2], _| *total += i128::from(one) * i128::from(other);
        self.lower.product(add, |column, totals| {
            for (row, value) in &columns[column] {
                totals.at(*row);
                entries_of_q[*row] = i128::from(*value);
            }
            for (row, product) in totals.entries() {
                let precision = std::mem::take(&mut entries_of_q[row]);
                let difference = product.abs_diff(precision);
                let least = worst.map_or(0, |told| told.product.abs_diff(told.precision));
                if difference > least {
                    worst = Some(PrecisionDifference {
                        row,
                        column,
                        product,
                        precision,
                        bound: 0,
                    });
                }
            }
            ControlFlow::Continue(())
        });
        match worst {
            None => Ok(()),
            Some(mut differs) => {
                (differs.row, differs.column) = cells(orig_to_perm, differs.row, differs.column);
                Err(FactorMismatch::Differs(differs))
            }
        }
    }
}
