//! Document 02's exact case beyond unit diagonals, in whole numbers of any size: whether every number that it asks about is a
//! whole multiple of 2^-s, within 2^53 where it says so; and the inverse itself, from L and not by the recurrence.
//!
//! A factor's values are taken times one power of two, by which all are whole.

use crate::big::Big;
use crate::rules::{place, Factor, Pairs};
use redstartgilt::{ExactFault, ExactStep};

/// A number that is not covered: which one, the row and the column of the entry that it is or is for, and why.
pub type Fault = (ExactStep, usize, usize, ExactFault);

/// A factor with positive diagonals, times 2^power.
pub struct WholeMultiple {
    power: usize,
    diagonals: Vec<Big>,
    below: Vec<Vec<(usize, Big)>>,
}

/// value · 2^power, which is whole.
fn scaled(value: f64, power: usize) -> Big {
    let bits = value.to_bits();
    let stored = (bits >> 52 & 0x7ff) as usize;
    let size = bits & ((1 << 52) - 1) | if stored > 0 { 1 << 52 } else { 0 };
    let size = if value < 0.0 { -i128::from(size) } else { i128::from(size) };
    // size · 2^(stored - 1075)
    let places = stored.max(1) + power;
    if places >= 1075 {
        &Big::from(size) << (places - 1075)
    } else {
        Big::from(size >> (1075 - places))
    }
}

/// The least power by which a value is whole.
fn least_power(value: f64) -> usize {
    (0..=1074)
        .find(|&power| {
            let whole = value * 2f64.powi(power / 2) * 2f64.powi(power - power / 2);
            whole.is_infinite() || whole.trunc() == whole
        })
        .expect("every float is a multiple of the least one") as usize
}

impl WholeMultiple {
    pub fn of(factor: &Factor) -> Self {
        let power = factor.values().map(least_power).max().unwrap_or(0);
        let below = |column: &Vec<(usize, f64)>| column.iter().map(|&(row, l)| (row, scaled(l, power))).collect();
        WholeMultiple {
            power,
            diagonals: factor.diagonals.iter().map(|d| scaled(d.expect("kept"), power)).collect(),
            below: factor.below.iter().map(below).collect(),
        }
    }

    /// The multipliers of the entries over a closed set, each at its place; or the first number that is not covered.
    pub fn multipliers(&self, set: &Pairs, s: usize) -> Result<Vec<i64>, Fault> {
        let (power, one) = (self.power, &Big::power_of_two(self.power));
        for j in 0..set.dimension() {
            for (row, value) in
                std::iter::once((j, &self.diagonals[j])).chain(self.below[j].iter().map(|e| (e.0, &e.1)))
            {
                if (value << s).divided_by(one).is_none() {
                    return Err((ExactStep::FactorEntry, row, j, ExactFault::NoMultiple));
                }
            }
        }
        let mut z = vec![0; set.places()];
        for j in (0..set.dimension()).rev() {
            let d = &self.diagonals[j];
            for i in (j + 1..set.dimension()).chain([j]).filter(|&i| set.has(i, j)) {
                // numerator / denominator, times 2^s
                let covered = |step, numerator: &Big, denominator: &Big| {
                    let fault = |fault| (step, i, j, fault);
                    let whole = (numerator << s).divided_by(denominator).ok_or(fault(ExactFault::NoMultiple))?;
                    whole.small().ok_or(fault(ExactFault::MultiplierTooLarge))
                };
                // a sum of products of values times 2^power and multipliers of 2^-s
                let (mut sum, unit) = (Big::from(0i64), one << s);
                for (k, l) in &self.below[j] {
                    let product = l * &Big::from(z[place(i, *k)]);
                    covered(ExactStep::Product(*k), &product, &unit)?;
                    sum = &sum + &product;
                    covered(ExactStep::Sum(*k), &sum, &unit)?;
                }
                if i > j {
                    // -(sum / 2^(power + s)) / (d / 2^power)
                    z[place(i, j)] = covered(ExactStep::Quotient, &-&sum, &(d << s))?;
                    continue;
                }
                let square = d * d;
                covered(ExactStep::Square, &square, &(one << power))?;
                covered(ExactStep::Reciprocal, &(one << power), &square)?;
                covered(ExactStep::Quotient, &sum, &(d << s))?;
                let entry = &(&(one << power) << s) - &(&sum * d);
                z[place(j, j)] = covered(ExactStep::Entry, &entry, &(&square << s))?;
            }
        }
        Ok(z)
    }

    /// The inverse of L·Lᵀ: of L times 2^power by columns, from the top.
    pub fn inverse(&self) -> Inverse {
        let n = self.diagonals.len();
        let value = |row: usize, column: usize| self.below[column].iter().find(|e| e.0 == row).map(|e| &e.1);
        let mut columns = Vec::new();
        for i in 0..n {
            // x(k) = solved[k - i] / (d(i) .. d(k))
            let mut solved = vec![Big::from(1i64)];
            for k in i + 1..n {
                let mut sum = Big::from(0i64);
                for t in i..k {
                    // so far over d(i) .. d(t - 1), and from now on over d(i) .. d(t)
                    if t > i {
                        sum = &sum * &self.diagonals[t];
                    }
                    if let Some(l) = value(k, t) {
                        sum = &sum + &(l * &solved[t - i]);
                    }
                }
                solved.push(-&sum);
            }
            // all over d(i) .. d(n - 1)
            let mut rest = Big::from(1i64);
            for k in (i..n).rev() {
                solved[k - i] = &solved[k - i] * &rest;
                rest = &rest * &self.diagonals[k];
            }
            columns.push((solved, rest));
        }
        Inverse { power: self.power, columns }
    }
}

/// The inverse of L times 2^power, by columns: each column's numbers from its diagonal on, over one number.
pub struct Inverse {
    power: usize,
    columns: Vec<(Vec<Big>, Big)>,
}

impl Inverse {
    /// Whether entry (i,j) of the inverse of L·Lᵀ is multiplier / 2^s, where i ≥ j.
    pub fn is(&self, i: usize, j: usize, multiplier: i64, s: usize) -> bool {
        let ((one, under), (other, below)) = (&self.columns[i], &self.columns[j]);
        let products = one.iter().zip(&other[i - j..]).map(|(a, b)| a * b);
        let sum = products.fold(Big::from(0i64), |sum, product| &sum + &product);
        // L was taken times 2^power, twice
        &Big::from(multiplier) * &(under * below) == &sum << (s + 2 * self.power)
    }
}
