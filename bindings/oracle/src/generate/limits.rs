//! Requests, the size of their closed set, and limits on either side of it.

use crate::body::Pair;
use cases::factor::Factor;
use cases::random::Random;
use std::fmt;

/// The largest number that a word of a list holds.
pub const MOST: usize = u32::MAX as usize;

/// A limit that does not fit 32 bits; what is left of it in these is one less than the size.
pub fn past_a_word(size: usize) -> Limit {
    Limit::At(MOST + size)
}

#[derive(Clone, Copy, PartialEq)]
pub enum Limit {
    Default,
    At(usize),
}

impl fmt::Display for Limit {
    fn fmt(&self, formatter: &mut fmt::Formatter) -> fmt::Result {
        match self {
            Limit::Default => formatter.write_str("default"),
            Limit::At(limit) => limit.fmt(formatter),
        }
    }
}

/// The number of pairs of the closed set of some requests, found in one sweep over the columns.
pub fn closed_size(factor: &Factor, requests: &[Pair]) -> usize {
    let n = factor.n;
    let mut found = vec![false; n * n];
    let place = |r: usize, c: usize| r.max(c) * n + r.min(c);
    for &(r, c) in requests {
        found[place(r, c)] = true;
    }
    let mut size = 0;
    for c in 0..n {
        for r in c..n {
            if found[place(r, c)] {
                size += 1;
                for (d, _) in factor.column(c).filter(|&(d, value)| d > c && value != 0.0) {
                    found[place(r, d)] = true;
                }
            }
        }
    }
    size
}

/// A limit that is often near the closed set's size.
pub fn some_limit(random: &mut Random, size: usize) -> Limit {
    match random.below(9) {
        0 => Limit::At(0),
        1 => Limit::At(size.saturating_sub(1)),
        2 | 3 => Limit::At(size),
        4 => Limit::At(size + 1),
        5 => past_a_word(size),
        6 if size > 0 => Limit::At(random.below(size)),
        _ => Limit::Default,
    }
}

pub fn all_limits(size: usize) -> Vec<Limit> {
    let numbers = [0, size.saturating_sub(1), size, size + 1, MOST, usize::MAX];
    let mut limits: Vec<Limit> =
        numbers.into_iter().map(Limit::At).chain([past_a_word(size), Limit::Default]).collect();
    limits.dedup();
    limits
}

/// The pairs (i, i).
pub fn diagonal(n: usize) -> Vec<Pair> {
    (0..n).map(|i| (i, i)).collect()
}

/// All pairs of a lower triangle, row by row.
pub fn triangle(n: usize) -> Vec<Pair> {
    (0..n).flat_map(|r| (0..=r).map(move |c| (r, c))).collect()
}

/// The members of a list that the bits of a number name.
pub fn members(list: &[Pair], bits: usize) -> Vec<Pair> {
    (0..list.len()).filter(|k| bits >> k & 1 == 1).map(|k| list[k]).collect()
}

/// Requests of several shapes: none, the diagonal, one pair, many, a few in the last columns, a few anywhere.
pub fn some_requests(random: &mut Random, n: usize) -> Vec<Pair> {
    let shape = random.below(6);
    let (first, count) = match shape {
        0 => return Vec::new(),
        1 => return diagonal(n),
        2 => (0, 1),
        3 => (0, 1 + random.below(3 * n)),
        4 => (random.below(n), 1 + random.below(4)),
        _ => (0, 1 + random.below(4)),
    };
    (0..count).map(|_| (first + random.below(n - first), first + random.below(n - first))).collect()
}

/// The same requests in another order, some twice, some with row and column exchanged.
pub fn jumbled(random: &mut Random, requests: &[Pair]) -> Vec<Pair> {
    let mut pairs = requests.to_vec();
    if !pairs.is_empty() && random.chance(0.5) {
        for _ in 0..1 + random.below(3) {
            pairs.push(random.pick(&pairs));
        }
    }
    for pair in &mut pairs {
        if random.chance(0.5) {
            *pair = (pair.1, pair.0);
        }
    }
    random.shuffle(&mut pairs);
    pairs
}
