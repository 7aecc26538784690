//! Selected entries in whole numbers: refusals and what they leave, sizes, and the exact inverse by another way.

use redstartgilt::lent::{self, EntryLists, FactorLists, ResultLists};
use redstartgilt::{
    selected_inverse_entries, selected_inverse_entries_whole, selected_inverse_entries_whole_in,
    selected_inverse_entries_whole_with_limit, selected_inverse_entries_whole_with_limit_in,
    selected_inverse_entries_with_limit, CholeskyFactor, Error, SparseSymmetricPattern, WholeFactor, Workspace,
    MAX_ENTRIES,
};

const LARGEST: i64 = 1 << 53;

/// The lists of a call, each of places that hold 7, and what it answers.
#[derive(Clone)]
struct Call<'a> {
    factor: FactorLists<'a, i64>,
    dimension: usize,
    requests: (&'a [u32], &'a [u32]),
    limit: usize,
    /// Places of result starts, rows and values, scratch and work.
    places: [usize; 5],
}

/// Refusal or whether it is complete, and the lists afterwards.
#[derive(Debug, PartialEq)]
struct Left {
    answer: Result<bool, Error>,
    result: (Vec<u32>, Vec<u32>, Vec<i64>),
    scratch: Vec<u32>,
    work: Vec<i64>,
}

impl Call<'_> {
    fn left(&self) -> Left {
        let [starts, rows, values, scratch, work] = self.places;
        let (mut starts, mut rows, mut values) = (vec![7; starts], vec![7; rows], vec![7; values]);
        let (mut scratch, mut work) = (vec![7; scratch], vec![7; work]);
        let answer = lent::selected_inverse_entries_whole_with_limit(
            self.factor,
            self.dimension,
            self.requests.0,
            self.requests.1,
            self.limit,
            ResultLists {
                starts: &mut starts,
                rows: &mut rows,
                values: &mut values,
            },
            &mut scratch,
            &mut work,
        );
        Left {
            answer: answer.map(|diagnostics| diagnostics.is_complete()),
            result: (starts, rows, values),
            scratch,
            work,
        }
    }

    fn untouched(&self, answer: Result<bool, Error>) -> Left {
        let [starts, rows, values, scratch, work] = self.places;
        Left {
            answer,
            result: (vec![7; starts], vec![7; rows], vec![7; values]),
            scratch: vec![7; scratch],
            work: vec![7; work],
        }
    }

    /// With scratch and work 0 in their lengths, of two columns, and later places untouched.
    fn cleared(&self, answer: Result<bool, Error>) -> Left {
        let mut left = self.untouched(answer);
        left.scratch[..12].fill(0);
        left.work[..self.limit.min(3)].fill(0);
        left
    }
}

/// The factor with columns (1, -3) and (1), with (0, 0) requested; each list has one place more than it needs.
fn call() -> Call<'static> {
    Call {
        factor: FactorLists {
            n: 2,
            starts: &[0, 2, 3],
            rows: &[0, 1, 1],
            values: &[1, -3, 1],
        },
        dimension: 2,
        requests: (&[0], &[0]),
        limit: 3,
        places: [4, 4, 4, 13, 4],
    }
}

fn with_values(values: &'static [i64]) -> Call<'static> {
    let call = call();
    Call {
        factor: FactorLists { values, ..call.factor },
        ..call
    }
}

#[test]
fn an_answer() {
    let left = call().left();
    let mut expected = call().cleared(Ok(true));
    expected.result = (vec![0, 2, 3, 7], vec![0, 1, 1, 7], vec![10, 3, 1, 7]);
    assert_eq!(left, expected);
    // Just as many places as are needed.
    let call = Call {
        places: [3, 3, 3, 12, 3],
        ..call()
    };
    assert_eq!(call.left().result.2, [10, 3, 1]);
}

/// Each refusal, the later ones beside an earlier one too.
#[test]
fn refusals_in_order() {
    let short = [0; 5];
    let many = vec![0; MAX_ENTRIES + 1];
    let (odd, missing) = (&[2, LARGEST + 1, 1], &[0, LARGEST + 1, 1]);
    let whole = |n, starts, rows, values| FactorLists {
        n,
        starts,
        rows,
        values,
    };
    let cases = [
        // 1: also of the requests, before the factor's starts.
        (whole(4_097, &[], &[], &[]), 1, (&[9][..], &[][..]), Error::TooLarge),
        (whole(2, &[], &[], &[]), 1, (&many[..], &[][..]), Error::TooLarge),
        (
            whole(2, &[0, 3, 2], &[1, 0, 1], odd),
            1,
            (&[9], &[]),
            Error::BrokenStarts,
        ),
        (
            whole(2, &[0, 2, 3], &[0, 1, 1], &[]),
            1,
            (&[9], &[]),
            Error::BrokenStarts,
        ),
        (whole(2, &[0, 2, 3], &[1, 0, 1], odd), 1, (&[9], &[]), Error::BrokenRows),
        (
            whole(2, &[0, 2, 3], &[0, 1, 1], odd),
            1,
            (&[9], &[9]),
            Error::DimensionMismatch,
        ),
        (
            whole(2, &[0, 2, 3], &[0, 1, 1], odd),
            2,
            (&[9], &[]),
            Error::DimensionMismatch,
        ),
        (
            whole(2, &[0, 2, 3], &[0, 1, 1], odd),
            2,
            (&[9], &[9]),
            Error::RequestOutOfRange,
        ),
        (
            whole(2, &[0, 2, 3], &[0, 1, 1], odd),
            2,
            (&[0], &[0]),
            Error::DiagonalNotOne,
        ),
        // 19 of column 1 before 6 of column 0.
        (
            whole(2, &[0, 2, 3], &[0, 1, 1], &[0, 1, -1]),
            2,
            (&[0], &[0]),
            Error::DiagonalNotOne,
        ),
        (
            whole(2, &[0, 2, 3], &[0, 1, 1], missing),
            2,
            (&[0], &[0]),
            Error::NonPositiveDefinite,
        ),
        (
            whole(2, &[0, 1, 2], &[1, 1], &[1, 1]),
            2,
            (&[0], &[0]),
            Error::NonPositiveDefinite,
        ),
        (
            whole(2, &[0, 2, 3], &[0, 1, 1], &[1, LARGEST + 1, 1]),
            2,
            (&[0], &[0]),
            Error::TooShort,
        ),
    ];
    for (factor, dimension, requests, error) in cases {
        let call = Call {
            factor,
            dimension,
            requests,
            limit: 3,
            places: short,
        };
        assert_eq!(call.left(), call.untouched(Err(error)), "{error}");
    }
    // 7: each list by itself, one place short.
    for list in 0..5 {
        let mut call = call();
        call.places = [3, 3, 3, 12, 3];
        call.places[list] -= 1;
        assert_eq!(call.left(), call.untouched(Err(Error::TooShort)), "list {list}");
    }
}

#[test]
fn above_the_limit_no_size_is_looked_at() {
    for values in [&[1, -3, 1], &[1, LARGEST + 1, 1], &[1, i64::MIN, 1]] {
        for limit in 0..3 {
            let call = Call {
                limit,
                ..with_values(values)
            };
            assert_eq!(call.left(), call.cleared(Ok(false)), "{values:?}, {limit}");
        }
    }
}

#[test]
fn sizes() {
    // The square of 2^27 is beyond 2^53; 94906265 is the largest number whose square is not.
    for values in [
        &[1, 1 << 27, 1],
        &[1, 94_906_266, 1],
        &[1, LARGEST + 1, 1],
        &[1, -LARGEST - 1, 1],
        &[1, i64::MIN, 1],
        &[1, i64::MAX, 1],
    ] {
        let call = with_values(values);
        assert_eq!(call.left(), call.cleared(Err(Error::NumberTooLarge)), "{values:?}");
    }
    let call = with_values(&[1, 94_906_265, 1]);
    assert_eq!(call.left().result.2, [9_007_199_136_250_226, -94_906_265, 1, 7]);
    // An entry beyond 2^53 counts where the set does not need it, also with no requests and the limit 0; 2^53 does not.
    for (value, answer) in [
        (LARGEST, Ok(true)),
        (-LARGEST, Ok(true)),
        (LARGEST + 1, Err(Error::NumberTooLarge)),
        (-LARGEST - 1, Err(Error::NumberTooLarge)),
    ] {
        let values = [1, value, 1];
        for (requests, limit) in [(&[1][..], 1), (&[][..], 0)] {
            let call = Call {
                factor: FactorLists {
                    values: &values,
                    ..call.factor
                },
                requests: (requests, requests),
                limit,
                ..call
            };
            let left = call.left();
            assert_eq!(left.answer, answer, "{value}, {limit}");
            assert_eq!((left.scratch, left.work), {
                let cleared = call.cleared(answer);
                (cleared.scratch, cleared.work)
            });
        }
    }
    // Dropped entries may be of any size: one above the diagonal here.
    let factor = WholeFactor::from_triplets(2, &[(0, 0, 1), (0, 1, i64::MIN), (1, 1, 1)]).unwrap();
    let all = SparseSymmetricPattern::diagonal(2);
    let inverse = selected_inverse_entries_whole(&factor, &all).unwrap().inverse.unwrap();
    assert_eq!(inverse.diag(), [Some(1), Some(1)]);
}

#[test]
fn factors() {
    assert_eq!(WholeFactor::from_triplets(4_097, &[]), Err(Error::TooLarge));
    assert_eq!(
        WholeFactor::new(1, vec![0, 1], vec![0; MAX_ENTRIES + 1], vec![]),
        Err(Error::TooLarge)
    );
    assert_eq!(
        WholeFactor::new(1, vec![0, 1], vec![0], vec![]),
        Err(Error::BrokenStarts)
    );
    assert_eq!(
        WholeFactor::new(1, vec![0, 1], vec![1], vec![1]),
        Err(Error::BrokenRows)
    );
    for triplets in [[(0, 0, 1), (0, 0, 1)], [(0, 0, 1), (2, 0, 1)], [(0, 0, 1), (0, 2, 1)]] {
        assert_eq!(
            WholeFactor::from_triplets(2, &triplets),
            Err(Error::BrokenRows),
            "{triplets:?}"
        );
    }
    // Diagonals and sizes are left to the calls.
    let factor = WholeFactor::from_triplets(2, &[(0, 0, 5), (1, 0, i64::MIN), (0, 1, 3)]).unwrap();
    assert_eq!((factor.dimension(), factor.nnz()), (2, 3));
    assert_eq!(factor.lower_triplets(), [(0, 0, 5), (1, 0, i64::MIN)]);
}

#[test]
fn lookups_refuse_as_those_of_floats() {
    for (starts, rows, places) in [
        (&[][..], &[][..], 0),
        (&[0], &[], 0),
        (&[0, 2, 3], &[0, 1, 1], 3),
        (&[0, 2, 3], &[0, 1, 1], 2),
        (&[0, 2, 3], &[1, 0, 1], 3),
        (&[0, 3, 2], &[0, 1, 1], 3),
        (&[0, 0, 1], &[1], 1),
    ] {
        let (floats, wholes) = (vec![2.0; places], vec![2; places]);
        let floats = EntryLists {
            starts,
            rows,
            values: &floats,
        };
        let wholes = EntryLists {
            starts,
            rows,
            values: &wholes,
        };
        assert_eq!(lent::check_result(wholes), lent::check_result(floats));
        for row in 0..4 {
            for column in 0..4 {
                assert_eq!(
                    lent::get_whole(wholes, row, column),
                    lent::get(floats, row, column).map(|value| value as i64),
                    "{starts:?} {rows:?} ({row}, {column})"
                );
            }
        }
    }
}

/// The same numbers at each run, by a linear congruence.
struct Random(u64);

impl Random {
    fn below(&mut self, bound: u64) -> u64 {
        self.0 = self
            .0
            .wrapping_mul(6_364_136_223_846_793_005)
            .wrapping_add(1_442_695_040_888_963_407);
        (self.0 >> 33) % bound
    }
}

/// The inverse of L times its transpose by the inverse of L, which is whole; modulo 2^128, as entries outside the set may be
/// of any size.
fn inverse_of(n: usize, lower: &[i128]) -> Vec<i128> {
    let sum_of = |terms: &mut dyn Iterator<Item = (i128, i128)>| {
        terms.fold(0i128, |sum, (one, other)| sum.wrapping_add(one.wrapping_mul(other)))
    };
    let mut solved = vec![0i128; n * n];
    for column in 0..n {
        for row in column..n {
            let sum = sum_of(&mut (column..row).map(|k| (lower[row * n + k], solved[k * n + column])));
            solved[row * n + column] = i128::from(row == column).wrapping_sub(sum);
        }
    }
    let entry = |row: usize, column: usize| sum_of(&mut (0..n).map(|k| (solved[k * n + row], solved[k * n + column])));
    (0..n * n).map(|place| entry(place / n, place % n)).collect()
}

/// Small factors, complete and past the limit: the exact inverse, the set and the entries of the floats, and the same with
/// a workspace that is used again.
#[test]
fn the_exact_inverse_and_the_floats() {
    let mut random = Random(8);
    let mut workspace = Workspace::new();
    let (mut complete, mut too_large, mut beyond) = (0, 0, 0);
    for _ in 0..2_000 {
        let n = 1 + random.below(9) as usize;
        let size = [2, 1_000, 100_000_000, 1_000_000_000][random.below(4) as usize];
        let mut lower = vec![0i128; n * n];
        let mut triplets = Vec::new();
        for column in 0..n {
            triplets.push((column, column, 1));
            lower[column * n + column] = 1;
            for row in 0..n {
                if row != column && random.below(3) == 0 {
                    let value = random.below(2 * size + 1) as i64 - size as i64;
                    triplets.push((row, column, value));
                    if row > column {
                        lower[row * n + column] = i128::from(value);
                    }
                }
            }
        }
        let factor = WholeFactor::from_triplets(n, &triplets).unwrap();
        let floats = triplets
            .iter()
            .map(|(row, column, value)| (*row, *column, *value as f64));
        let floats = CholeskyFactor::from_triplets(n, &floats.collect::<Vec<_>>()).unwrap();
        let mut requested = SparseSymmetricPattern::new(n);
        for _ in 0..random.below(6) {
            let mut index = || random.below(n as u64) as usize;
            requested.insert(index(), index()).unwrap();
        }
        let limit = random.below(30) as usize;
        let selected = selected_inverse_entries_whole_with_limit(&factor, &requested, limit);
        assert_eq!(
            selected_inverse_entries_whole_with_limit_in(&factor, &requested, limit, &mut workspace),
            selected
        );
        assert_eq!(
            selected_inverse_entries_whole_in(&factor, &requested, &mut workspace),
            selected_inverse_entries_whole(&factor, &requested)
        );
        let by_floats = selected_inverse_entries_with_limit(&floats, &requested, limit).unwrap();
        let selected = match selected {
            Err(Error::NumberTooLarge) => {
                assert!(by_floats.inverse.is_some());
                beyond += 1;
                continue;
            }
            selected => selected.unwrap(),
        };
        assert_eq!(selected.diagnostics, by_floats.diagnostics);
        let Some(inverse) = selected.inverse else {
            assert_eq!(by_floats.inverse, None);
            too_large += 1;
            continue;
        };
        complete += 1;
        let by_floats = by_floats.inverse.unwrap();
        let entries = inverse
            .entries()
            .map(|(row, column, value)| (row, column, value as f64));
        // As numbers: -0.0 is equal to 0.
        assert!(entries.eq(by_floats.entries()));
        assert_eq!(lent::check_result(inverse.lists()), Ok(()));
        let exact = inverse_of(n, &lower);
        let mut found = 0;
        for row in 0..n {
            for column in 0..n {
                let value = inverse.get(row, column);
                assert_eq!(value.is_some(), by_floats.get(row, column).is_some());
                if let Some(value) = value {
                    assert_eq!(i128::from(value), exact[row * n + column]);
                    found += usize::from(row >= column);
                }
            }
            assert_eq!(inverse.diag()[row], inverse.get(row, row));
            assert_eq!(inverse.get(row, n), None);
        }
        assert_eq!((found, inverse.dimension()), (inverse.len(), n));
        assert_eq!(inverse.is_empty(), requested.pairs.is_empty());
    }
    assert!(
        complete > 400 && too_large > 200 && beyond > 100,
        "{complete} {too_large} {beyond}"
    );
}

#[test]
fn a_workspace_holds_what_it_needs() {
    let mut workspace = Workspace::new();
    let factor = WholeFactor::new(2, vec![0, 2, 3], vec![0, 1, 1], vec![1, -3, 1]).unwrap();
    selected_inverse_entries_whole_in(&factor, &SparseSymmetricPattern::diagonal(2), &mut workspace).unwrap();
    // 3 starts, 3 rows, 12 words of scratch; 3 values and 3 places of work.
    assert_eq!(workspace.bytes(), 4 * (3 + 3 + 12) + 8 * (3 + 3));
    let floats = CholeskyFactor::new(2, vec![0, 2, 3], vec![0, 1, 1], vec![1.0, -3.0, 1.0]).unwrap();
    let requested = SparseSymmetricPattern::diagonal(2);
    let inverse = selected_inverse_entries(&floats, &requested).unwrap().inverse.unwrap();
    assert_eq!(inverse.get(0, 0), Some(10.0));
}
