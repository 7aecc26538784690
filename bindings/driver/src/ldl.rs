//! Document 02's recurrence on a unit lower factor with pivots, in floats, and how far its entries may be from those of our
//! own family's factor of the same matrix.

use crate::rules::{place, Factor, Pairs};

/// The recurrence over a closed set, each pair's value at its place.
pub fn recurrence(factor: &Factor, pivots: &[f64], set: &Pairs) -> Vec<f64> {
    let mut z = vec![0.0; set.places()];
    for j in (0..set.dimension()).rev() {
        let sum = |z: &[f64], i: usize| factor.below[j].iter().fold(0.0, |sum, &(k, l)| sum + l * z[place(i, k)]);
        for i in (j + 1..set.dimension()).filter(|&i| set.has(i, j)) {
            z[place(i, j)] = -sum(&z, i);
        }
        if set.has(j, j) {
            z[place(j, j)] = 1.0 / pivots[j] - sum(&z, j);
        }
    }
    z
}

/// The relative error that so many roundings make at most, one after the other: k·u / (1 - k·u), u half the unit in the last
/// place of 1.
fn gamma(roundings: usize) -> f64 {
    let most = roundings as f64 * (f64::EPSILON / 2.0);
    most / (1.0 - most)
}

/// How far an entry z of a unit lower factor with pivots d and the entry w of our own family on L·sqrt(D) may be apart, each
/// pair's bound at its place.
///
/// Let s be the rounded root of d, and m(k) the rounded l(k)·s. Of t descendants both sums add t products from 0.0; the first
/// addition is exact. A term of z(i,j) = -S is rounded t times, by its product and by at most t - 1 additions. A term of
/// w(i,j) = (-S)/s is m(k)·w(i,k)/s: rounded as often, and once more in m(k) and in the quotient, while s itself falls out.
/// So with |η| ≤ γ(t) and |θ| ≤ γ(t + 2)
///
///   z(i,j) = -Σ l(k)·z(i,k)·(1 + η),  w(i,j) = -Σ l(k)·w(i,k)·(1 + θ),
///   |z(i,j) - w(i,j)| ≤ Σ |l(k)|·(e(i,k) + γ(t)·|z(i,k)| + γ(t + 2)·|w(i,k)|),
///
/// where e bounds the same difference of the entries that are summed. On the diagonal the last difference is rounded once
/// more; 1/d is rounded twice in 1/d - S', and five times in 1/(s·s) - S'/s: twice for s, for the square, the quotient and
/// the difference. A product or a quotient that underflows is off by up to half the least float besides: t products on either
/// side, one of them divided by s, and one quotient.
///
/// The bound itself is summed in floats; what it loses so is made up by a part of 2^-20.
pub fn most_apart(factor: &Factor, pivots: &[f64], set: &Pairs, z: &[f64], w: &[f64]) -> Vec<f64> {
    let mut apart = vec![0.0; set.places()];
    for j in (0..set.dimension()).rev() {
        let (d, below) = (pivots[j], &factor.below[j]);
        let t = below.len();
        let underflow = (t as f64 * (1.0 + 1.0 / d.sqrt()) + 1.0) * f64::from_bits(1);
        let summed = |apart: &[f64], i: usize, last: usize| -> f64 {
            let term = |p: usize| apart[p] + gamma(t + last) * z[p].abs() + gamma(t + 2 + last) * w[p].abs();
            underflow + below.iter().map(|&(k, l)| l.abs() * term(place(i, k))).sum::<f64>()
        };
        for i in (j + 1..set.dimension()).filter(|&i| set.has(i, j)) {
            apart[place(i, j)] = summed(&apart, i, 0);
        }
        if set.has(j, j) {
            apart[place(j, j)] = (gamma(2) + gamma(5)) / d + summed(&apart, j, 1);
        }
    }
    apart.iter().map(|bound| bound * (1.0 + 2f64.powi(-20))).collect()
}
