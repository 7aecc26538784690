//! The chain to a pair: document 02's rules, the refusals in their order, and what each lent list holds afterwards.

use redstartgilt::lent::{self, FactorLists};
use redstartgilt::{
    dependency_chain, dependency_chain_in, selected_inverse_entries, selected_inverse_entries_with_limit,
    CholeskyFactor, Error, SparseSymmetricPattern, Workspace, MAX_ENTRIES,
};

type Pairs = Vec<(usize, usize)>;

/// A factor of 1 on the diagonal and at these places (row, column).
fn factor(n: usize, below: &[(usize, usize)]) -> CholeskyFactor {
    let diagonal = (0..n).map(|cell| (cell, cell, 1.0));
    let triplets = diagonal.chain(below.iter().map(|(row, column)| (*row, *column, 1.0)));
    CholeskyFactor::from_triplets(n, &triplets.collect::<Vec<_>>()).unwrap()
}

fn f2() -> CholeskyFactor {
    factor(2, &[(1, 0)])
}

fn f3() -> CholeskyFactor {
    factor(3, &[(1, 0), (2, 0)])
}

fn requests(n: usize, pairs: &[(usize, usize)]) -> SparseSymmetricPattern {
    let mut requested = SparseSymmetricPattern::new(n);
    for (row, column) in pairs {
        requested.insert(*row, *column).unwrap();
    }
    requested
}

#[track_caller]
fn check(factor: &CholeskyFactor, requested: &[(usize, usize)], pair: (usize, usize), expected: &[(usize, usize)]) {
    let requested = requests(factor.dimension(), requested);
    let expected = (!expected.is_empty()).then(|| expected.to_vec());
    for (row, column) in [pair, (pair.1, pair.0)] {
        assert_eq!(dependency_chain(factor, &requested, row, column).unwrap(), expected);
    }
}

#[test]
fn chains_from_the_request_to_the_pair() {
    check(&f2(), &[(0, 1)], (1, 0), &[(1, 0)]);
    check(&f2(), &[(0, 0)], (1, 1), &[(0, 0), (1, 0), (1, 1)]);
    check(&f3(), &[(0, 0)], (2, 1), &[(0, 0), (1, 0), (2, 1)]);
    check(&factor(1, &[]), &[(0, 0)], (0, 0), &[(0, 0)]);
}

#[test]
fn a_requested_pair_is_its_own_chain() {
    check(&f3(), &[(0, 0), (1, 0)], (1, 0), &[(1, 0)]);
    check(&f3(), &[(0, 0), (2, 1), (0, 1)], (2, 1), &[(2, 1)]);
}

#[test]
fn a_pair_that_is_not_in_the_set() {
    check(&f3(), &[(1, 1)], (2, 1), &[]);
    check(&f3(), &[], (0, 0), &[]);
    check(&f2(), &[(1, 0)], (0, 0), &[]);
    // A dropped entry leads nowhere.
    let dropped = CholeskyFactor::from_triplets(2, &[(0, 0, 1.0), (1, 0, -0.0), (0, 1, 3.0), (1, 1, 1.0)]).unwrap();
    check(&dropped, &[(0, 0)], (1, 0), &[]);
}

/// Of equally short chains the pair before the last decides, by column before row, then the one before that.
#[test]
fn ties() {
    check(&f3(), &[(2, 0), (1, 0)], (2, 1), &[(1, 0), (2, 1)]);
    let path = factor(3, &[(1, 0), (2, 1)]);
    check(&path, &[(1, 1), (2, 0)], (2, 1), &[(2, 0), (2, 1)]);
    let fork = factor(4, &[(1, 0), (2, 1), (3, 1)]);
    check(&fork, &[(1, 1), (3, 0)], (3, 2), &[(1, 1), (2, 1), (3, 2)]);
}

/// Row + column rises by 1 at each step of a path, so its longest chain is as long as any can be.
#[test]
fn the_longest_chain() {
    let n = 40;
    let path = factor(n, &(1..n).map(|row| (row, row - 1)).collect::<Vec<_>>());
    let chain = dependency_chain(&path, &requests(n, &[(0, 0)]), n - 1, n - 1)
        .unwrap()
        .unwrap();
    assert_eq!(chain.len(), 2 * n - 1);
    let sums = chain.iter().map(|(row, column)| row + column);
    assert!(sums.eq(0..2 * n - 1));
    assert_eq!(chain.len(), lent::chain_places(n));
}

/// The closed set passes the default limit, and every limit below it.
#[test]
fn no_limit_is_applied() {
    let n = 60;
    let full = factor(n, &(1..n).map(|row| (row, 0)).collect::<Vec<_>>());
    let requested = requests(n, &[(0, 0)]);
    assert_eq!(selected_inverse_entries(&full, &requested).unwrap().inverse, None);
    check(&full, &[(0, 0)], (59, 58), &[(0, 0), (58, 0), (59, 58)]);
}

/// The same numbers at each run.
fn random(seed: u64) -> impl FnMut(usize) -> usize {
    let mut state = seed;
    move |below| {
        state = state
            .wrapping_mul(6_364_136_223_846_793_005)
            .wrapping_add(1_442_695_040_888_963_407);
        (state >> 33) as usize % below
    }
}

/// All chains of so many pairs to a pair, back from its end.
fn chains_to(kept: &[(usize, usize)], requested: &Pairs, pair: (usize, usize), length: usize) -> Vec<Pairs> {
    if length == 1 {
        return requested
            .iter()
            .filter(|one| **one == pair)
            .map(|one| vec![*one])
            .collect();
    }
    let before = (0..=pair.0).flat_map(|row| (0..=row).map(move |column| (row, column)));
    let needs = |(row, column): (usize, usize)| {
        kept.iter()
            .any(|(d, c)| *c == column && (row.max(*d), row.min(*d)) == pair)
    };
    before
        .filter(|one| needs(*one))
        .flat_map(|one| chains_to(kept, requested, one, length - 1))
        .map(|mut chain| {
            chain.push(pair);
            chain
        })
        .collect()
}

/// Against all chains of each length, and against the set of the selected entries.
#[test]
fn small_factors_by_definition() {
    let (mut found, mut absent, mut ties) = (0, 0, 0);
    for seed in 0..150 {
        let mut next = random(seed);
        let n = 1 + next(5);
        let places = (0..n).flat_map(|row| (0..row).map(move |column| (row, column)));
        let kept = places.filter(|_| next(3) > 0).collect::<Vec<_>>();
        let factor = factor(n, &kept);
        let requested = requests(n, &(0..1 + next(3)).map(|_| (next(n), next(n))).collect::<Vec<_>>());
        let asked = requested.pairs.iter().copied().collect::<Pairs>();
        let set = selected_inverse_entries_with_limit(&factor, &requested, usize::MAX).unwrap();
        let inverse = set.inverse.unwrap();
        for row in 0..n {
            for column in 0..=row {
                let chain = dependency_chain(&factor, &requested, row, column).unwrap();
                assert_eq!(chain.is_some(), inverse.get(row, column).is_some());
                let shortest = (1..2 * n).map(|length| chains_to(&kept, &asked, (row, column), length));
                let Some(shortest) = shortest.into_iter().find(|chains| !chains.is_empty()) else {
                    assert_eq!(chain, None, "seed {seed}: ({row}, {column})");
                    absent += 1;
                    continue;
                };
                ties += usize::from(shortest.len() > 1);
                let back = |chain: &Pairs| chain.iter().rev().map(|pair| (pair.1, pair.0)).collect::<Vec<_>>();
                assert_eq!(
                    chain,
                    shortest.into_iter().min_by_key(back),
                    "seed {seed}: ({row}, {column})"
                );
                found += 1;
            }
        }
    }
    assert!(found > 300 && absent > 300 && ties > 30, "{found} {absent} {ties}");
}

/// A call on lists of its own, which may be broken and short; all lists for writing hold 7s before it.
#[derive(Clone)]
struct Call {
    n: usize,
    starts: Vec<u32>,
    rows: Vec<u32>,
    values: Vec<f64>,
    dimension: usize,
    request_rows: Vec<u32>,
    request_columns: Vec<u32>,
    pair: (usize, usize),
    scratch: usize,
    chain_rows: usize,
    chain_columns: usize,
}

/// The reply, the scratch and the chain lists.
type Left = (Result<usize, u32>, Vec<u32>, Vec<u32>, Vec<u32>);

impl Call {
    /// F3 with (0, 0) requested and (2, 1) asked for, one place more than needed in each list.
    fn good() -> Self {
        Self {
            n: 3,
            starts: vec![0, 3, 4, 5],
            rows: vec![0, 1, 2, 1, 2],
            values: vec![1.0, 2.0, 3.0, 1.0, 1.0],
            dimension: 3,
            request_rows: vec![0],
            request_columns: vec![0],
            pair: (2, 1),
            scratch: 25,
            chain_rows: 4,
            chain_columns: 4,
        }
    }

    fn make(&self) -> Left {
        let factor = FactorLists {
            n: self.n,
            starts: &self.starts,
            rows: &self.rows,
            values: &self.values,
        };
        let [mut scratch, mut rows, mut columns] =
            [self.scratch, self.chain_rows, self.chain_columns].map(|length| vec![7; length]);
        let reply = lent::dependency_chain(
            factor,
            self.dimension,
            &self.request_rows,
            &self.request_columns,
            self.pair.0,
            self.pair.1,
            &mut scratch,
            &mut rows,
            &mut columns,
        );
        (reply.map_err(Error::number), scratch, rows, columns)
    }

    /// Refused with a number, and every list as it was.
    #[track_caller]
    fn refused(&self, number: u32) {
        let [scratch, rows, columns] =
            [self.scratch, self.chain_rows, self.chain_columns].map(|length| vec![7; length]);
        assert_eq!(self.make(), (Err(number), scratch, rows, columns));
    }
}

/// 24 words of 0, and the one past them as it was.
fn cleared() -> Vec<u32> {
    let mut words = vec![0; 24];
    words.push(7);
    words
}

#[test]
fn lists_after_an_answer() {
    let call = Call::good();
    assert_eq!(lent::chain_words(3), 24);
    assert_eq!(call.make(), (Ok(3), cleared(), vec![0, 1, 2, 7], vec![0, 0, 1, 7]));
    // Just long enough.
    let short = Call {
        scratch: 24,
        chain_rows: 3,
        chain_columns: 3,
        ..call.clone()
    };
    assert_eq!(short.make(), (Ok(3), vec![0; 24], vec![0, 1, 2], vec![0, 0, 1]));
    // Not in the set: chain lists of any length, as they were.
    for (chain_rows, chain_columns) in [(4, 4), (0, 0), (0, 4), (4, 0)] {
        let absent = Call {
            request_rows: vec![1],
            request_columns: vec![1],
            chain_rows,
            chain_columns,
            ..call.clone()
        };
        let left = (Ok(0), cleared(), vec![7; chain_rows], vec![7; chain_columns]);
        assert_eq!(absent.make(), left);
    }
    // Requests in either order, one of them twice.
    let twice = Call {
        request_rows: vec![0, 1, 0],
        request_columns: vec![1, 0, 0],
        ..call
    };
    assert_eq!(twice.make(), (Ok(2), cleared(), vec![1, 2, 7, 7], vec![0, 1, 7, 7]));
}

/// Either list that is shorter than the chain: both as they were, and the scratch 0 as after an answer.
#[test]
fn a_chain_list_too_short() {
    for (chain_rows, chain_columns) in [(2, 4), (4, 2), (2, 2), (0, 0), (3, 0)] {
        let call = Call {
            chain_rows,
            chain_columns,
            ..Call::good()
        };
        let left = (Err(7), cleared(), vec![7; chain_rows], vec![7; chain_columns]);
        assert_eq!(call.make(), left);
    }
    // A chain of one pair.
    let requested = Call {
        request_rows: vec![2],
        request_columns: vec![1],
        chain_rows: 0,
        ..Call::good()
    };
    assert_eq!(requested.make(), (Err(7), cleared(), vec![], vec![7; 4]));
}

/// Each refusal beside all later ones: the faults are taken away one after the other.
#[test]
fn refusals_in_order() {
    let mut call = Call {
        n: 4_097,
        starts: vec![1, 3, 4, 5],
        rows: vec![0, 2, 1, 1, 2],
        values: vec![f64::NAN, 2.0, 3.0, 0.0, -1.0],
        dimension: 4,
        request_rows: vec![3],
        request_columns: vec![0],
        pair: (3, usize::MAX),
        scratch: 23,
        chain_rows: 0,
        chain_columns: 0,
    };
    call.refused(1);
    call.n = 3;
    for (rows, requests) in [(MAX_ENTRIES + 1, 1), (5, MAX_ENTRIES + 1)] {
        let large = Call {
            rows: vec![9; rows],
            request_rows: vec![9; requests],
            ..call.clone()
        };
        large.refused(1);
    }
    call.refused(2);
    call.starts[0] = 0;
    call.refused(3);
    call.rows = vec![0, 1, 2, 1, 2];
    call.refused(18);
    call.values[0] = 1.0;
    call.refused(4);
    call.dimension = 3;
    call.request_columns.clear();
    call.refused(4);
    call.request_columns.push(0);
    call.refused(5);
    call.request_rows[0] = 0;
    call.refused(6);
    call.values[3] = 1.0;
    call.refused(6);
    call.values[4] = 1.0;
    call.refused(7);
    call.scratch = 25;
    // The pair's 5, before its lists are looked at.
    for pair in [(3, usize::MAX), (3, 0), (0, 3), (usize::MAX, 0), (1 << 32, 0)] {
        call.pair = pair;
        call.refused(5);
    }
    call.pair = (2, 1);
    assert_eq!(call.make(), (Err(7), cleared(), vec![], vec![]));
    call.chain_rows = 3;
    assert_eq!(call.make(), (Err(7), cleared(), vec![7; 3], vec![]));
    call.chain_columns = 3;
    assert_eq!(call.make().0, Ok(3));
}

#[test]
fn the_scratch_goes_before_the_pair() {
    let call = Call {
        n: 1,
        starts: vec![0, 1],
        rows: vec![0],
        values: vec![1.0],
        dimension: 1,
        request_rows: vec![],
        request_columns: vec![],
        pair: (4, 0),
        scratch: 0,
        chain_rows: 0,
        chain_columns: 0,
    };
    call.refused(7);
    Call { scratch: 6, ..call }.refused(5);
}

/// In dimension 0 every pair is outside.
#[test]
fn no_columns() {
    let call = Call {
        n: 0,
        starts: vec![0],
        rows: vec![],
        values: vec![],
        dimension: 0,
        request_rows: vec![],
        request_columns: vec![],
        pair: (0, 0),
        scratch: 1,
        chain_rows: 1,
        chain_columns: 1,
    };
    call.refused(5);
}

#[test]
fn refusals_of_the_crate() {
    let one = requests(3, &[(0, 0)]);
    for (row, column) in [(3, 0), (0, 3), (usize::MAX, 0), (1 << 32, 0)] {
        assert_eq!(
            dependency_chain(&f3(), &one, row, column),
            Err(Error::RequestOutOfRange)
        );
    }
    assert_eq!(
        dependency_chain(&f3(), &requests(2, &[]), 0, 0),
        Err(Error::DimensionMismatch)
    );
    let outside = SparseSymmetricPattern {
        dimension: 3,
        pairs: [(3, 0)].into(),
    };
    assert_eq!(dependency_chain(&f3(), &outside, 0, 0), Err(Error::RequestOutOfRange));
    for diagonal in [0.0, -1.0] {
        let factor = CholeskyFactor::from_triplets(1, &[(0, 0, diagonal)]).unwrap();
        let one = requests(1, &[(0, 0)]);
        assert_eq!(dependency_chain(&factor, &one, 0, 0), Err(Error::NonPositiveDefinite));
        assert_eq!(dependency_chain(&factor, &one, 1, 0), Err(Error::NonPositiveDefinite));
    }
}

/// The entry that is not finite is told, as other calls tell it.
#[test]
fn an_entry_that_is_not_finite() {
    let lists = FactorLists {
        n: 2,
        starts: &[0, 2, 3],
        rows: &[0, 1, 1],
        values: &[1.0, f64::INFINITY, 1.0],
    };
    let refused = lent::dependency_chain(lists, 2, &[], &[], 0, 0, &mut [], &mut [], &mut []);
    assert_eq!(refused, Err(Error::NotFiniteEntry(Some((1, 0)))));
}

#[test]
fn a_used_workspace_gives_the_same() {
    let mut workspace = Workspace::new();
    for (n, seed) in [(12, 1), (3, 2), (30, 3), (1, 5), (30, 6), (7, 7)] {
        let mut next = random(seed);
        let places = (0..n).flat_map(|row| (0..row).map(move |column| (row, column)));
        let factor = factor(n, &places.filter(|_| next(4) == 0).collect::<Vec<_>>());
        let requested = requests(n, &[(next(n), next(n))]);
        for (row, column) in (0..n).map(|row| (row, next(n))) {
            assert_eq!(
                dependency_chain_in(&factor, &requested, row, column, &mut workspace),
                dependency_chain(&factor, &requested, row, column)
            );
        }
        // Lists that a result has been in, and is in again.
        assert_eq!(
            redstartgilt::selected_inverse_entries_in(&factor, &requested, &mut workspace),
            selected_inverse_entries(&factor, &requested)
        );
    }
}
