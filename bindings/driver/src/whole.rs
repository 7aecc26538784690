//! Document 02's recurrence in whole numbers, exact: which of its numbers pass 2^53 in size. The numbers are of 128 bits,
//! each step checked.

use crate::rules::{place, Factor, Pairs};

/// The greatest size that is accepted.
pub const GREATEST: i64 = 1 << 53;

/// The numbers whose size decides.
#[derive(Clone, Copy, Debug, PartialEq, Eq, PartialOrd, Ord)]
pub enum Kind {
    KeptEntry,
    Product,
    /// A running sum of an entry below the diagonal.
    Sum,
    /// A running sum of an entry on the diagonal.
    DiagonalSum,
    Entry,
}

pub const KINDS: [Kind; 5] = [Kind::KeptEntry, Kind::Product, Kind::Sum, Kind::DiagonalSum, Kind::Entry];

pub struct Exact {
    /// The entry of each pair of the set, at its place.
    pub entries: Vec<i128>,
    /// Of each kind whether a number passes 2^53.
    passed: [bool; KINDS.len()],
}

/// The recurrence over a closed set of a factor whose diagonals are 1. It ends at a number that 128 bits do not hold, which
/// passes too.
pub fn exact(factor: &Factor<i64>, set: &Pairs) -> Exact {
    let mut exact = Exact { entries: vec![0; set.places()], passed: [false; KINDS.len()] };
    for l in factor.values() {
        exact.looked_at(Kind::KeptEntry, Some(l.into()));
    }
    let ended = (0..set.dimension()).rev().try_for_each(|j| exact.column(factor, set, j));
    debug_assert!(ended.is_some() || exact.passes());
    exact
}

impl Exact {
    /// Whether any number passes 2^53.
    pub fn passes(&self) -> bool {
        self.passed.contains(&true)
    }

    /// The kinds of the numbers that pass.
    pub fn kinds(&self) -> Vec<Kind> {
        KINDS.into_iter().filter(|&kind| self.passed[kind as usize]).collect()
    }

    /// A number as it is, its size looked at.
    fn looked_at(&mut self, kind: Kind, number: Option<i128>) -> Option<i128> {
        self.passed[kind as usize] |= number.is_none_or(|x| x > GREATEST.into() || x < (-GREATEST).into());
        number
    }

    /// The entries of column j, those of later columns known.
    fn column(&mut self, factor: &Factor<i64>, set: &Pairs, j: usize) -> Option<()> {
        let below = &factor.below[j];
        for i in (j + 1..set.dimension()).filter(|&i| set.has(i, j)) {
            let sum = self.sum(Kind::Sum, below, |k| place(i, k))?;
            self.entries[place(i, j)] = self.looked_at(Kind::Entry, sum.checked_neg())?;
        }
        if set.has(j, j) {
            let sum = self.sum(Kind::DiagonalSum, below, |k| place(k, j))?;
            self.entries[place(j, j)] = self.looked_at(Kind::Entry, 1i128.checked_sub(sum))?;
        }
        Some(())
    }

    /// The products of a column's descendants with the entries at their places, added up.
    fn sum(&mut self, kind: Kind, below: &[(usize, i64)], place: impl Fn(usize) -> usize) -> Option<i128> {
        let mut sum: i128 = 0;
        for &(k, l) in below {
            let z = self.entries[place(k)];
            let product = self.looked_at(Kind::Product, z.checked_mul(l.into()))?;
            sum = self.looked_at(kind, sum.checked_add(product))?;
        }
        Some(sum)
    }
}
