//! Document 02's bounds on the variance of a row whose weights are known within ranges, in 128-bit numbers: each term's
//! least and greatest value is looked for among its values at the ends.

use crate::call::Call;
use crate::rules::entry;

/// The low and the high end of a weight, or of what is made of weights.
type Ends = [i128; 2];

/// A weight times another, or itself, times the entry of their columns.
pub struct Term {
    weight: Ends,
    /// None where the weight is taken twice.
    other: Option<Ends>,
    entry: i128,
}

/// Every ordered pair of columns.
pub fn pairs(columns: &[u32]) -> impl Iterator<Item = (usize, usize)> + '_ {
    columns.iter().flat_map(move |&a| columns.iter().map(move |&b| (a as usize, b as usize)))
}

/// The terms of an accepted call, in the order of its pairs.
pub fn terms(call: &Call) -> Vec<Term> {
    let ranges = &call.ranges;
    let ends = |at: usize| [ranges.lows[at].into(), ranges.highs[at].into()];
    let count = ranges.columns.len();
    let term = |(at, (a, b))| {
        let (first, second) = (at / count, at % count);
        let other = (first != second).then(|| ends(second));
        let entry = entry(&call.whole_entries, a, b).expect("not refused").into();
        Term { weight: ends(first), other, entry }
    };
    pairs(&ranges.columns).enumerate().map(term).collect()
}

/// The least and the greatest of some numbers, of which there is one.
fn extremes(numbers: impl Iterator<Item = i128>) -> Ends {
    numbers.fold([i128::MAX, i128::MIN], |[low, high], x| [low.min(x), high.max(x)])
}

impl Term {
    /// The least and the greatest value: of two weights at the ends of both; of one with itself at its ends, and at 0 where
    /// that is one of its choices.
    pub fn extremes(&self) -> Ends {
        let [low, high] = self.weight;
        let Some([from, to]) = self.other else {
            let zero = (low <= 0 && 0 <= high).then_some(0);
            return extremes([low, high].into_iter().chain(zero).map(|w| w * w * self.entry));
        };
        extremes([low * from, low * to, high * from, high * to].into_iter().map(|product| product * self.entry))
    }

    /// How many choices of whole weights it has.
    pub fn choices(&self) -> i128 {
        let [low, high] = self.weight;
        self.other.map_or(1, |[from, to]| to - from + 1) * (high - low + 1)
    }

    /// The least and the greatest value among all choices of whole weights.
    pub fn among_choices(&self) -> Ends {
        let [low, high] = self.weight;
        let Some([from, to]) = self.other else {
            return extremes((low..=high).map(|w| w * w * self.entry));
        };
        extremes((low..=high).flat_map(|w| (from..=to).map(move |v| w * v)).map(|product| product * self.entry))
    }
}

/// The low and the high bound of an accepted call.
pub fn bounds(call: &Call) -> Ends {
    let terms = terms(call);
    [0, 1].map(|end| terms.iter().map(|term| term.extremes()[end]).sum())
}

/// The variance of a row with these weights, given its terms.
pub fn variance(terms: &[Term], weights: &[i64]) -> i128 {
    let products = weights.iter().flat_map(|&w| weights.iter().map(move |&v| i128::from(w) * i128::from(v)));
    products.zip(terms).map(|(product, term)| product * term.entry).sum()
}
