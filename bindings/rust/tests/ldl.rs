//! Selected entries of a factor with pivots: refusals and what they leave, both forms of one matrix, and the inverse by
//! another way.

use redstartgilt::lent::{self, FactorLists, ResultLists};
use redstartgilt::{
    selected_inverse_entries_ldl, selected_inverse_entries_ldl_in, selected_inverse_entries_ldl_with_limit,
    selected_inverse_entries_ldl_with_limit_in, selected_inverse_entries_with_limit, CholeskyFactor, Error, LdlFactor,
    Permutation, SparseSymmetricPattern, Workspace, MAX_ENTRIES,
};

/// The lists of a call, each of places that hold 7, and what it answers.
#[derive(Clone)]
struct Call<'a> {
    factor: FactorLists<'a>,
    pivots: &'a [f64],
    dimension: usize,
    requests: (&'a [u32], &'a [u32]),
    limit: usize,
    /// Places of result starts, rows and values, and scratch.
    places: [usize; 4],
}

/// Refusal or whether it is complete, and the lists afterwards.
#[derive(Debug, PartialEq)]
struct Left {
    answer: Result<bool, Error>,
    result: (Vec<u32>, Vec<u32>, Vec<f64>),
    scratch: Vec<u32>,
}

impl Call<'_> {
    fn left(&self) -> Left {
        let [starts, rows, values, scratch] = self.places;
        let (mut starts, mut rows, mut values) = (vec![7; starts], vec![7; rows], vec![7.0; values]);
        let mut scratch = vec![7; scratch];
        let answer = lent::selected_inverse_entries_ldl_with_limit(
            self.factor,
            self.pivots,
            self.dimension,
            self.requests.0,
            self.requests.1,
            self.limit,
            ResultLists {
                starts: &mut starts,
                rows: &mut rows,
                values: &mut values,
            },
            &mut scratch,
        );
        Left {
            answer: answer.map(|diagnostics| diagnostics.is_complete()),
            result: (starts, rows, values),
            scratch,
        }
    }

    fn untouched(&self, answer: Result<bool, Error>) -> Left {
        let [starts, rows, values, scratch] = self.places;
        Left {
            answer,
            result: (vec![7; starts], vec![7; rows], vec![7.0; values]),
            scratch: vec![7; scratch],
        }
    }

    /// With the scratch of two columns 0 in its length, and later words untouched.
    fn cleared(&self, answer: Result<bool, Error>) -> Left {
        let mut left = self.untouched(answer);
        left.scratch[..12].fill(0);
        left
    }
}

const PIVOTS: &[f64] = &[4.0, 0.5];

/// L has 2 below its diagonal, which is stored; each list has one place more than it needs.
fn call() -> Call<'static> {
    Call {
        factor: FactorLists {
            n: 2,
            starts: &[0, 2, 3],
            rows: &[0, 1, 1],
            values: &[1.0, 2.0, 1.0],
        },
        pivots: PIVOTS,
        dimension: 2,
        requests: (&[0], &[0]),
        limit: 3,
        places: [4, 4, 4, 13],
    }
}

#[test]
fn an_answer() {
    let stored = call();
    // The diagonal is stored, not stored, and stored as zeros, which are dropped.
    let absent = FactorLists {
        starts: &[0, 1, 1],
        rows: &[1],
        values: &[2.0],
        ..stored.factor
    };
    let zeros = FactorLists {
        values: &[0.0, 2.0, -0.0],
        ..stored.factor
    };
    for factor in [stored.factor, absent, zeros] {
        let call = Call { factor, ..call() };
        let mut expected = call.cleared(Ok(true));
        expected.result = (vec![0, 2, 3, 7], vec![0, 1, 1, 7], vec![8.25, -4.0, 2.0, 7.0]);
        assert_eq!(call.left(), expected);
        // Just as many places as are needed.
        let call = Call {
            places: [3, 3, 3, 12],
            ..call
        };
        assert_eq!(call.left().result.2, [8.25, -4.0, 2.0]);
        for limit in 0..3 {
            let call = Call { limit, ..call.clone() };
            assert_eq!(call.left(), call.cleared(Ok(false)), "{limit}");
        }
    }
}

/// Each refusal, the later ones beside an earlier one too.
#[test]
fn refusals_in_order() {
    let many = vec![0; MAX_ENTRIES + 1];
    let lists = |n, starts, rows, values| FactorLists {
        n,
        starts,
        rows,
        values,
    };
    let unit = |values| lists(2, &[0, 2, 3], &[0, 1, 1], values);
    let (odd, nan) = (&[2.0, 2.0, 1.0], &[2.0, f64::NAN, 1.0]);
    let good = (&[0][..], &[0][..]);
    let cases = [
        (
            lists(5_000, &[], &[], &[]),
            &[][..],
            1,
            (&[9][..], &[][..]),
            Error::TooLarge,
        ),
        (lists(2, &[], &[], &[]), &[], 1, (&many[..], &[][..]), Error::TooLarge),
        (
            lists(2, &[0, 3, 2], &[1, 0, 1], nan),
            &[],
            1,
            (&[9], &[]),
            Error::BrokenStarts,
        ),
        (
            lists(2, &[0, 2, 3], &[0, 1, 1], &[]),
            &[],
            1,
            (&[9], &[]),
            Error::BrokenStarts,
        ),
        (
            lists(2, &[0, 2, 3], &[1, 0, 1], nan),
            &[],
            1,
            (&[9], &[]),
            Error::BrokenRows,
        ),
        (
            unit(nan),
            &[f64::NAN],
            1,
            (&[9], &[]),
            Error::NotFiniteEntry(Some((1, 0))),
        ),
        (unit(odd), &[f64::NAN], 1, (&[9], &[]), Error::DimensionMismatch),
        (unit(odd), &[0.0; 3], 2, good, Error::DimensionMismatch),
        (unit(odd), &[0.0, f64::NAN], 1, (&[9], &[]), Error::NotFiniteEntry(None)),
        (
            unit(odd),
            &[f64::NEG_INFINITY, 0.0],
            2,
            (&[9], &[9]),
            Error::NotFiniteEntry(None),
        ),
        (unit(odd), &[0.0, 1.0], 1, (&[9], &[9]), Error::DimensionMismatch),
        (unit(odd), &[0.0, 1.0], 2, (&[9], &[]), Error::DimensionMismatch),
        (unit(odd), &[0.0, 1.0], 2, (&[9], &[0]), Error::RequestOutOfRange),
        (unit(odd), &[0.0, 1.0], 2, good, Error::PivotDiagonalNotOne),
        // 23 of column 1 before 6 of column 0.
        (
            unit(&[1.0, 2.0, -1.0]),
            &[0.0, 1.0],
            2,
            good,
            Error::PivotDiagonalNotOne,
        ),
        (
            unit(&[1.0, 2.0, 1.0]),
            &[1.0, -0.0],
            2,
            good,
            Error::NonPositiveDefinite,
        ),
        (
            lists(2, &[0, 1, 1], &[1], &[2.0]),
            &[-5e-324, 1.0],
            2,
            good,
            Error::NonPositiveDefinite,
        ),
        (
            lists(2, &[0, 1, 1], &[1], &[2.0]),
            &[5e-324, 1.0],
            2,
            good,
            Error::TooShort,
        ),
    ];
    for (factor, pivots, dimension, requests, error) in cases {
        let call = Call {
            factor,
            pivots,
            dimension,
            requests,
            limit: 3,
            places: [0; 4],
        };
        assert_eq!(call.left(), call.untouched(Err(error)), "{error}");
    }
    // 7: each list by itself, one place short.
    for list in 0..4 {
        let mut call = call();
        call.places = [3, 3, 3, 12];
        call.places[list] -= 1;
        assert_eq!(call.left(), call.untouched(Err(Error::TooShort)), "list {list}");
    }
}

#[test]
fn factors() {
    let new = |values: &[f64], pivots: &[f64]| {
        LdlFactor::new(2, vec![0, 2, 3], vec![0, 1, 1], values.to_vec(), pivots.to_vec())
    };
    assert!(new(&[1.0, 2.0, 1.0], PIVOTS).is_ok());
    for (values, pivots, error) in [
        (&[1.0, 2.0][..], PIVOTS, Error::BrokenStarts),
        (&[1.0, f64::NAN, 2.0], &[], Error::NotFiniteEntry(Some((1, 0)))),
        (&[2.0, 2.0, 1.0], &[4.0], Error::DimensionMismatch),
        (&[2.0, 2.0, 1.0], &[0.0, f64::INFINITY], Error::NotFiniteEntry(None)),
        (&[2.0, 2.0, 1.0], &[0.0, 1.0], Error::PivotDiagonalNotOne),
        (&[1.0, 2.0, 1.0], &[4.0, 0.0], Error::NonPositiveDefinite),
    ] {
        assert_eq!(new(values, pivots), Err(error));
    }
    assert_eq!(LdlFactor::from_triplets(5_000, &[], vec![]), Err(Error::TooLarge));
    for triplets in [
        [(1, 0, 1.0), (1, 0, 1.0)],
        [(1, 0, 1.0), (2, 0, 1.0)],
        [(1, 0, 1.0), (0, 2, 1.0)],
    ] {
        assert_eq!(
            LdlFactor::from_triplets(2, &triplets, PIVOTS.to_vec()),
            Err(Error::BrokenRows),
            "{triplets:?}"
        );
    }
    // Above the diagonal anything may stand.
    let factor = LdlFactor::from_triplets(2, &[(0, 0, 0.0), (1, 0, 2.0), (0, 1, f64::NAN)], PIVOTS.to_vec()).unwrap();
    assert_eq!((factor.dimension(), factor.nnz()), (2, 3));
    assert_eq!(factor.lower_triplets(), [(1, 0, 2.0)]);
    assert_eq!(factor.pivots(), PIVOTS);
    let factor = factor
        .with_permutation(Permutation::from_orig_to_perm(vec![1, 0]).unwrap())
        .unwrap();
    assert_eq!(factor.permutation().orig_to_perm, [1, 0]);
    let inverse = selected_inverse_entries_ldl(&factor, &SparseSymmetricPattern::diagonal(2))
        .unwrap()
        .inverse
        .unwrap();
    let cells = factor.permute_factor_to_original_marked(&inverse.diag()).unwrap();
    assert_eq!(cells, [Some(2.0), Some(8.25)]);
    let empty = LdlFactor::new(0, vec![0], vec![], vec![], vec![]).unwrap();
    let selected = selected_inverse_entries_ldl(&empty, &SparseSymmetricPattern::new(0)).unwrap();
    assert!(selected.inverse.unwrap().is_empty());
    assert_eq!(
        LdlFactor::new(0, vec![0], vec![], vec![], vec![1.0]),
        Err(Error::DimensionMismatch)
    );
}

/// A factor is refused when it is made, so calls refuse requests alone.
#[test]
fn requests() {
    let factor = LdlFactor::from_triplets(2, &[(1, 0, 2.0)], PIVOTS.to_vec()).unwrap();
    assert_eq!(
        selected_inverse_entries_ldl(&factor, &SparseSymmetricPattern::diagonal(3)),
        Err(Error::DimensionMismatch)
    );
    let outside = SparseSymmetricPattern {
        dimension: 2,
        pairs: [(2, 0)].into(),
    };
    assert_eq!(
        selected_inverse_entries_ldl_with_limit(&factor, &outside, 3),
        Err(Error::RequestOutOfRange)
    );
}

#[test]
fn texts() {
    let told = |error: Error| error.to_string();
    assert_eq!(
        told(Error::PivotDiagonalNotOne),
        "refusal 23: a diagonal entry of a factor with pivots is not 1"
    );
    for (error, word) in [
        (Error::DimensionMismatch, "pivots"),
        (Error::NonPositiveDefinite, "a pivot is at most 0"),
        (Error::NotFiniteEntry(None), "a pivot is not finite"),
    ] {
        assert!(told(error).contains(word), "{error}");
    }
}

/// The same numbers at each run, by a linear congruence.
struct Random(u64);

impl Random {
    fn below(&mut self, bound: u64) -> u64 {
        self.0 = self
            .0
            .wrapping_mul(6_364_136_223_846_793_005)
            .wrapping_add(1_442_695_040_888_963_407);
        (self.0 >> 33) % bound
    }
}

/// The inverse of L·D·Lᵀ by the inverse of L, for inverses of pivots; whole numbers to a power of 2.
fn inverse_of(n: usize, lower: &[f64], inverses: &[f64]) -> Vec<f64> {
    let mut solved = vec![0.0; n * n];
    for column in 0..n {
        for row in column..n {
            let sum = (column..row)
                .map(|k| lower[row * n + k] * solved[k * n + column])
                .sum::<f64>();
            solved[row * n + column] = f64::from(row == column) - sum;
        }
    }
    let entry = |row: usize, column: usize| {
        (0..n)
            .map(|k| solved[k * n + row] * inverses[k] * solved[k * n + column])
            .sum::<f64>()
    };
    (0..n * n).map(|place| entry(place / n, place % n)).collect()
}

/// Pivots that are powers of 4 and small whole entries, so that nothing is rounded: the inverse, the entries of L with each
/// column times its pivot's root bit for bit, and the same with a workspace that is used again.
#[test]
fn the_inverse_and_the_other_form() {
    let mut random = Random(12);
    let mut workspace = Workspace::new();
    let (mut complete, mut too_large) = (0, 0);
    for _ in 0..2_000 {
        let n = 1 + random.below(7) as usize;
        let roots = (0..n)
            .map(|_| f64::powi(2.0, random.below(7) as i32 - 3))
            .collect::<Vec<_>>();
        let mut lower = vec![0.0; n * n];
        let (mut unit, mut rooted) = (Vec::new(), Vec::new());
        for column in 0..n {
            match random.below(3) {
                0 => unit.push((column, column, 1.0)),
                1 => unit.push((column, column, 0.0)),
                _ => {}
            }
            rooted.push((column, column, roots[column]));
            for row in column + 1..n {
                if random.below(3) == 0 {
                    let value = random.below(7) as f64 - 3.0;
                    unit.push((row, column, value));
                    rooted.push((row, column, value * roots[column]));
                    lower[row * n + column] = value;
                }
            }
        }
        let pivots = roots.iter().map(|root| root * root).collect::<Vec<_>>();
        let factor = LdlFactor::from_triplets(n, &unit, pivots.clone()).unwrap();
        let cholesky = CholeskyFactor::from_triplets(n, &rooted).unwrap();
        let mut requested = SparseSymmetricPattern::new(n);
        for _ in 0..random.below(6) {
            let mut index = || random.below(n as u64) as usize;
            requested.insert(index(), index()).unwrap();
        }
        let limit = random.below(30) as usize;
        let selected = selected_inverse_entries_ldl_with_limit(&factor, &requested, limit);
        assert_eq!(
            selected_inverse_entries_ldl_with_limit_in(&factor, &requested, limit, &mut workspace),
            selected
        );
        assert_eq!(
            selected_inverse_entries_ldl_in(&factor, &requested, &mut workspace),
            selected_inverse_entries_ldl(&factor, &requested)
        );
        let (selected, other) = (
            selected.unwrap(),
            selected_inverse_entries_with_limit(&cholesky, &requested, limit).unwrap(),
        );
        assert_eq!(selected.diagnostics, other.diagnostics);
        let Some(inverse) = selected.inverse else {
            assert_eq!(other.inverse, None);
            too_large += 1;
            continue;
        };
        complete += 1;
        let bits = |entries: &dyn Fn() -> Vec<(usize, usize, f64)>| {
            let entries = entries().into_iter();
            entries
                .map(|(row, column, value)| (row, column, value.to_bits()))
                .collect::<Vec<_>>()
        };
        let other = other.inverse.unwrap();
        assert_eq!(
            bits(&|| inverse.entries().collect()),
            bits(&|| other.entries().collect())
        );
        let inverses = pivots.iter().map(|pivot| 1.0 / pivot).collect::<Vec<_>>();
        let exact = inverse_of(n, &lower, &inverses);
        for (row, column, value) in inverse.entries() {
            assert_eq!(value, exact[row * n + column], "({row}, {column})");
        }
    }
    assert!(complete > 1_000 && too_large > 100, "{complete} {too_large}");
}
