//! Chains to a pair by document 02's text: the driver's own, and every chain there is.

use crate::call::Call;
use crate::rules::{place, requested, triangle, Factor};

pub type Pair = (usize, usize);

/// A pair's dependency by a descendant of its column, put in order.
fn dependency(pair: Pair, descendant: usize) -> Pair {
    (pair.0.max(descendant), pair.0.min(descendant))
}

/// What tells equally short chains apart: the pair before the last by column then row, then the one before that, and so on.
fn back(chain: &[Pair]) -> Vec<Pair> {
    chain.iter().rev().skip(1).map(|&(row, column)| (column, row)).collect()
}

/// The chain to each pair of the closed set of a call's requests.
pub struct Chains {
    n: usize,
    /// At each pair's place how many pairs its chain has, 0 where it is not in the set.
    lengths: Vec<usize>,
    /// The pair before it, where the chain has more than one.
    before: Vec<Pair>,
    /// Whether another chain is as short.
    several: Vec<bool>,
}

impl Chains {
    /// The factor is sound and no request is outside. In one sweep by column then row a pair is met after all that lead to it.
    pub fn of(call: &Call) -> Self {
        let (n, factor, requests) = (call.factor.n, Factor::kept(&call.factor), requested(call));
        let pairs = triangle(n);
        let (lengths, before, several) = (vec![0; pairs], vec![(0, 0); pairs], vec![false; pairs]);
        let mut chains = Chains { n, lengths, before, several };
        for column in 0..n {
            for row in column..n {
                let at = place(row, column);
                if requests.has(row, column) {
                    (chains.lengths[at], chains.several[at]) = (1, false);
                }
                if chains.lengths[at] > 0 {
                    factor.below[column].iter().for_each(|&(descendant, _)| chains.lengthen((row, column), descendant));
                }
            }
        }
        chains
    }

    /// The chain to a pair, longer by one of its dependencies, if no chain is known that document 02 prefers.
    fn lengthen(&mut self, pair: Pair, descendant: usize) {
        let next = dependency(pair, descendant);
        let (from, to) = (place(pair.0, pair.1), place(next.0, next.1));
        let (length, known) = (self.lengths[from] + 1, self.lengths[to]);
        if known > 0 && known < length {
            return;
        }
        let other = self.before[to];
        let tie = known == length;
        if !tie || (pair.1, pair.0) < (other.1, other.0) {
            (self.lengths[to], self.before[to]) = (length, pair);
        }
        self.several[to] = tie || self.several[from];
    }

    /// How many pairs the chain to a pair has, 0 where it is not in the set.
    pub fn length(&self, pair: Pair) -> usize {
        self.lengths[place(pair.0, pair.1)]
    }

    pub fn several(&self, pair: Pair) -> bool {
        self.several[place(pair.0, pair.1)]
    }

    /// How many pairs the closed set has.
    pub fn pairs(&self) -> usize {
        self.lengths.iter().filter(|&&length| length > 0).count()
    }

    /// The pair with the longest chain.
    pub fn farthest(&self) -> Pair {
        let pairs = (0..self.n).flat_map(|row| (0..=row).map(move |column| (row, column)));
        pairs.max_by_key(|&pair| self.length(pair)).unwrap_or_default()
    }

    /// From the requested pair on.
    pub fn chain(&self, pair: Pair) -> Vec<Pair> {
        let mut chain = Vec::new();
        let mut last = pair;
        for _ in 0..self.length(pair) {
            chain.push(last);
            last = self.before[place(last.0, last.1)];
        }
        chain.reverse();
        chain
    }
}

/// The chain to a pair, chosen among all chains that there are: for small factors alone.
pub fn chosen(call: &Call, pair: Pair) -> Vec<Pair> {
    let factor = Factor::kept(&call.factor);
    let mut best = Vec::new();
    for request in requested(call).listed() {
        each_chain(&factor, &mut vec![request], pair, &mut best);
    }
    best
}

/// Goes through every chain that begins with the one given and ends with the pair; a chain ends, as row + column rises.
fn each_chain(factor: &Factor, chain: &mut Vec<Pair>, pair: Pair, best: &mut Vec<Pair>) {
    let last = chain[chain.len() - 1];
    if last == pair && (best.is_empty() || (chain.len(), back(chain)) < (best.len(), back(best))) {
        best.clone_from(chain);
    }
    for &(descendant, _) in &factor.below[last.1] {
        chain.push(dependency(last, descendant));
        each_chain(factor, chain, pair, best);
        chain.pop();
    }
}
