//! Why a pair is computed: the chain from a requested pair to it, in the numbers of the cells.

use crate::failure::Failure;
use redstartgilt::{dependency_chain, CholeskyFactor, Error, SparseSymmetricPattern};
use std::fmt::Display;

/// Two cells.
pub type Pair = (usize, usize);

/// An entry of the factor that leads from a pair to the next: of the pair's cells one gives way to another, which is
/// coupled to it.
#[derive(Debug, Clone, Copy, PartialEq, Eq)]
pub struct Coupling {
    pub from: usize,
    pub to: usize,
    /// Row and column in the factor's order.
    pub entry: Pair,
}

/// A cell of the chain with the first and the last pair that it is in, counted from 0; it is in all between.
#[derive(Debug, Clone, Copy, PartialEq, Eq)]
pub struct OnChain {
    pub cell: usize,
    pub first: usize,
    pub last: usize,
}

/// The answer for a pair.
#[derive(Debug, Clone, PartialEq)]
pub struct Why {
    /// The pair asked for, the larger number first.
    pair: Pair,
    /// The pairs of the chain, none where the pair is not in the set.
    pub pairs: Vec<Pair>,
    /// What leads to each pair but the first.
    pub couplings: Vec<Coupling>,
    /// Whether cells and the factor's columns are in different orders.
    permuted: bool,
}

fn in_order(one: usize, other: usize) -> Pair {
    (one.max(other), one.min(other))
}

/// A pair as it is written, counted from 1.
pub fn words((row, column): Pair) -> String {
    format!("({}, {})", row + 1, column + 1)
}

/// The entry (d, c) by which (r, c) needs (r, d), put in order.
fn entry((row, column): Pair, next: Pair) -> Pair {
    let descendant = if next.0 == row { next.1 } else { next.0 };
    (descendant, column)
}

impl Why {
    /// The chain to a pair of cells; the requests are in the factor's order, and `place` is for messages.
    pub fn find(
        place: impl Display,
        factor: &CholeskyFactor,
        requested: &SparseSymmetricPattern,
        (row, column): Pair,
    ) -> Result<Why, Failure> {
        let n = factor.dimension();
        let permutation = factor.permutation();
        // An index outside stays as it is, for the library to refuse.
        let column_of = |cell: usize| permutation.orig_to_perm.get(cell).copied().unwrap_or(cell);
        let chain = dependency_chain(factor, requested, column_of(row), column_of(column)).map_err(|error| {
            match error {
                // The requests are inside: they were checked when they were read.
                Error::RequestOutOfRange => Failure::refused_because(
                    format_args!("--why {},{}", row + 1, column + 1),
                    error,
                    format_args!("the factor has {n} cells, numbered from 1"),
                ),
                _ => Failure::refused_at(&place, error),
            }
        })?;
        let chain = chain.unwrap_or_default();
        let cell = |column: usize| permutation.perm_to_orig[column];
        let pairs = chain.iter().map(|(row, column)| in_order(cell(*row), cell(*column)));
        let couplings = chain.windows(2).map(|pairs| {
            let entry = entry(pairs[0], pairs[1]);
            Coupling {
                from: cell(entry.1),
                to: cell(entry.0),
                entry,
            }
        });
        Ok(Why {
            pair: in_order(row, column),
            pairs: pairs.collect(),
            couplings: couplings.collect(),
            permuted: (0..n).any(|column| cell(column) != column),
        })
    }

    /// The answer in short.
    pub fn title(&self) -> String {
        let pair = words(self.pair);
        match self.pairs.len() {
            0 => format!("{pair} is not in the set"),
            1 => format!("{pair} was requested"),
            count => format!("Chain of {count} pairs to {pair}"),
        }
    }

    /// The answer in a sentence.
    pub fn answer(&self) -> String {
        let pair = words(self.pair);
        match self.pairs.len() {
            0 => format!("{pair} is not in the set: it was not requested, and nothing that was requested needs it."),
            1 => format!("{pair} is in the set because it was requested."),
            count => format!(
                "{pair} is in the set because {} was requested: a chain of {count} pairs leads to it, and none is shorter.",
                words(self.pairs[0])
            ),
        }
    }

    /// Which numbers the cells have.
    pub fn numbering(&self) -> &'static str {
        match (self.permuted, self.couplings.is_empty()) {
            (false, _) => "Cells have the numbers of the factor's rows and columns, from 1.",
            (true, true) => "Cells have their own numbers, from 1, and not those of the factor's order.",
            (true, false) => {
                "Cells have their own numbers, from 1; only entries of the factor have those of the factor's order."
            }
        }
    }

    /// A sentence for each pair, where there is more than one.
    pub fn sentences(&self) -> Vec<String> {
        let mut sentences = Vec::new();
        for (number, coupling) in self.couplings.iter().enumerate() {
            let before = words(self.pairs[number]);
            if number == 0 {
                sentences.push(format!("{before} was requested."));
            }
            sentences.push(format!(
                "{} is needed because {before} {} and cell {} is coupled to cell {} by entry {} of the factor.",
                words(self.pairs[number + 1]),
                if number == 0 { "was requested" } else { "is needed" },
                coupling.to + 1,
                coupling.from + 1,
                words(coupling.entry)
            ));
        }
        sentences
    }

    /// The cells of the chain, in the order in which they come into it.
    pub fn cells(&self) -> Vec<OnChain> {
        let mut cells: Vec<OnChain> = Vec::new();
        for (number, (one, other)) in self.pairs.iter().enumerate() {
            for cell in [*one, *other] {
                match cells.iter_mut().find(|on_chain| on_chain.cell == cell) {
                    Some(on_chain) => on_chain.last = number,
                    None => cells.push(OnChain {
                        cell,
                        first: number,
                        last: number,
                    }),
                }
            }
        }
        cells
    }

    /// The pairs that a cell is in, in words.
    pub fn pairs_of(&self, on_chain: &OnChain) -> String {
        let (first, last, count) = (on_chain.first + 1, on_chain.last + 1, self.pairs.len());
        if first == last {
            format!("pair {first} of {count}")
        } else {
            format!("pairs {first} to {last} of {count}")
        }
    }
}

impl OnChain {
    /// The pairs that the cell is in, in short.
    pub fn range(&self, dash: char) -> String {
        if self.first == self.last {
            (self.first + 1).to_string()
        } else {
            format!("{}{dash}{}", self.first + 1, self.last + 1)
        }
    }
}

#[cfg(test)]
mod tests {
    use super::{entry, words, Why};
    use crate::failure::Failure;
    use redstartgilt::{CholeskyFactor, Permutation, SparseSymmetricPattern};

    /// Columns 0 to 5, each with an entry in the two rows below its diagonal.
    fn band() -> CholeskyFactor {
        let triplets = (0..6).flat_map(|column| (column..6.min(column + 3)).map(move |row| (row, column, 1.0)));
        CholeskyFactor::from_triplets(6, &triplets.collect::<Vec<_>>()).unwrap()
    }

    fn first() -> SparseSymmetricPattern {
        let mut requested = SparseSymmetricPattern::new(6);
        requested.insert(0, 0).unwrap();
        requested
    }

    #[test]
    fn entries_between_pairs() {
        assert_eq!(entry((5, 1), (5, 3)), (3, 1));
        assert_eq!(entry((5, 1), (7, 5)), (7, 1));
        assert_eq!(entry((5, 1), (5, 5)), (5, 1));
        assert_eq!(entry((1, 1), (5, 1)), (5, 1));
    }

    /// Each coupling is a kept entry, takes the pair before to the next, and a cell is in no pair but those of its range.
    #[test]
    fn couplings_and_cells() {
        let orders = [vec![0, 1, 2, 3, 4, 5], vec![3, 5, 0, 1, 4, 2]];
        for order in orders {
            let permutation = Permutation::from_orig_to_perm(order.clone()).unwrap();
            let factor = band().with_permutation(permutation).unwrap();
            let kept = factor.lower_triplets();
            for (row, column) in (0..6).flat_map(|row| (0..6).map(move |column| (row, column))) {
                let why = Why::find("the band", &factor, &first(), (row, column)).unwrap();
                if order[row].abs_diff(order[column]) > 2 {
                    assert_eq!(why.pairs, []);
                    continue;
                }
                assert_eq!(why.pairs.last(), Some(&(row.max(column), row.min(column))));
                assert_eq!(why.couplings.len() + 1, why.pairs.len());
                for (pairs, coupling) in why.pairs.windows(2).zip(&why.couplings) {
                    let (d, c) = coupling.entry;
                    assert!(d > c && kept.iter().any(|(row, column, _)| (*row, *column) == (d, c)));
                    assert_eq!((order[coupling.to], order[coupling.from]), (d, c));
                    let stays = if pairs[0].0 == coupling.from {
                        pairs[0].1
                    } else {
                        pairs[0].0
                    };
                    assert_eq!(pairs[1], (stays.max(coupling.to), stays.min(coupling.to)));
                }
                for on_chain in why.cells() {
                    for (number, (one, other)) in why.pairs.iter().enumerate() {
                        let inside = (on_chain.first..=on_chain.last).contains(&number);
                        assert_eq!([*one, *other].contains(&on_chain.cell), inside);
                    }
                }
                assert_eq!(
                    why.sentences().len(),
                    if why.pairs.len() > 1 { why.pairs.len() } else { 0 }
                );
            }
        }
    }

    #[test]
    fn in_words() {
        let why = Why::find("the band", &band(), &first(), (1, 2)).unwrap();
        assert_eq!(words((2, 1)), "(3, 2)");
        assert_eq!(why.title(), "Chain of 3 pairs to (3, 2)");
        assert_eq!(
            why.sentences(),
            [
                "(1, 1) was requested.",
                "(2, 1) is needed because (1, 1) was requested and cell 2 is coupled to cell 1 by entry (2, 1) of the \
                 factor.",
                "(3, 2) is needed because (2, 1) is needed and cell 3 is coupled to cell 1 by entry (3, 1) of the factor."
            ]
        );
        let cells = why.cells();
        assert_eq!(
            cells.iter().map(|cell| cell.range('-')).collect::<Vec<_>>(),
            ["1-2", "2-3", "3"]
        );
        assert_eq!(why.pairs_of(&cells[1]), "pairs 2 to 3 of 3");
        assert_eq!(why.pairs_of(&cells[2]), "pair 3 of 3");
        let outside = Why::find("the band", &band(), &first(), (0, 6));
        assert_eq!(
            outside,
            Err(Failure {
                message: "--why 1,7: refusal 5: the factor has 6 cells, numbered from 1".into(),
                status: 15
            })
        );
    }
}
