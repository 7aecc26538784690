//! The check of the hypotheses under which entries are proved exact.

use redstartgilt::{
    exact_multipliers, least_exact_multipliers, selected_inverse_entries, CholeskyFactor, Error, ExactFault, ExactStep,
    NotExact, SparseSymmetricPattern,
};

fn pattern(dimension: usize, pairs: &[(usize, usize)]) -> SparseSymmetricPattern {
    SparseSymmetricPattern {
        dimension,
        pairs: pairs.iter().copied().collect(),
    }
}

fn factor(n: usize, triplets: &[(usize, usize, f64)]) -> CholeskyFactor {
    CholeskyFactor::from_triplets(n, triplets).unwrap()
}

/// Columns (4, -3, 8), (2, 1) and (1/2), with every diagonal requested.
#[test]
fn multipliers_are_the_entries() {
    let factor = factor(
        3,
        &[
            (0, 0, 4.0),
            (1, 0, -3.0),
            (2, 0, 8.0),
            (1, 1, 2.0),
            (2, 1, 1.0),
            (2, 2, 0.5),
        ],
    );
    let requested = SparseSymmetricPattern::diagonal(3);
    let exact = least_exact_multipliers(&factor, &requested).unwrap();
    let inverse = selected_inverse_entries(&factor, &requested).unwrap().inverse.unwrap();
    let unit = 2f64.powi(exact.scale() as i32);
    // Entry (0, 0) is 1457/64, and the largest number in size is its sum -1453/16.
    assert_eq!((exact.scale(), exact.get(0, 0)), (6, Some(1457)));
    for row in 0..4 {
        for column in 0..4 {
            let value = exact.get(row, column).map(|multiplier| multiplier as f64 / unit);
            assert_eq!(inverse.get(row, column), value, "({row}, {column})");
        }
    }
    // It is covered by this scale and larger ones, until a multiplier passes 2^53.
    for scale in 0..=53 {
        let covered = exact_multipliers(&factor, &requested, scale);
        assert_eq!(covered.is_ok(), (6..=46).contains(&scale), "{scale}: {covered:?}");
        if let Ok(covered) = covered {
            assert_eq!(
                covered.get(0, 0),
                exact.get(0, 0).map(|multiplier| multiplier << (scale - 6))
            );
        }
    }
}

/// What the call refuses is told as it does.
#[test]
fn refusals() {
    let one = factor(1, &[(0, 0, 2.0)]);
    for (factor, requested, error) in [
        (&one, pattern(2, &[]), Error::DimensionMismatch),
        (&one, pattern(1, &[(1, 0)]), Error::RequestOutOfRange),
        (&one, pattern(1, &[(0, 1)]), Error::RequestOutOfRange),
        (&factor(1, &[]), pattern(1, &[]), Error::NonPositiveDefinite),
        (&factor(1, &[(0, 0, -2.0)]), pattern(1, &[]), Error::NonPositiveDefinite),
        // The dimension first, the diagonal last.
        (&factor(1, &[]), pattern(2, &[(1, 1)]), Error::DimensionMismatch),
        (&factor(1, &[]), pattern(1, &[(1, 1)]), Error::RequestOutOfRange),
    ] {
        let refused = NotExact::Refused(error);
        assert_eq!(selected_inverse_entries(factor, &requested).unwrap_err(), error);
        assert_eq!(exact_multipliers(factor, &requested, 0).unwrap_err(), refused);
        assert_eq!(least_exact_multipliers(factor, &requested).unwrap_err(), refused);
    }
    assert_eq!(
        exact_multipliers(&one, &pattern(1, &[]), 54).unwrap_err(),
        NotExact::ScaleTooLarge(54)
    );
}

/// Kept entries count in every column, whatever is requested; nothing else is asked outside the set.
#[test]
fn outside_the_set() {
    let odd = factor(2, &[(0, 0, 3.0), (1, 0, 5.0), (1, 1, 1.0)]);
    let exact = exact_multipliers(&odd, &pattern(2, &[(1, 1)]), 0).unwrap();
    assert_eq!(
        [exact.get(1, 1), exact.get(1, 0), exact.get(2, 0)],
        [Some(1), None, None]
    );
    let fine = factor(2, &[(0, 0, 0.25), (1, 1, 1.0)]);
    for requested in [pattern(2, &[]), pattern(2, &[(1, 1)])] {
        let Err(NotExact::Uncovered(uncovered)) = exact_multipliers(&fine, &requested, 1) else {
            panic!("1/4 is no multiple of 1/2");
        };
        let at = (uncovered.step, uncovered.row, uncovered.column, uncovered.fault);
        assert_eq!(at, (ExactStep::FactorEntry, 0, 0, ExactFault::NoMultiple));
        assert_eq!(uncovered.value.to_string(), "1/4");
    }
    // An entry above the diagonal is dropped, NaN too.
    let above = factor(2, &[(0, 0, 1.0), (0, 1, f64::NAN), (1, 1, 1.0)]);
    assert!(exact_multipliers(&above, &SparseSymmetricPattern::diagonal(2), 0).is_ok());
}

/// A diagonal of 2^1000 under which all is 0 is a multiple; met by 1, it is not covered.
#[test]
fn entries_of_any_size() {
    let large = 2f64.powi(1000);
    let covered = factor(3, &[(0, 0, large), (1, 0, large), (1, 1, 1.0), (2, 2, 1.0)]);
    let exact = exact_multipliers(&covered, &pattern(3, &[(2, 0)]), 53).unwrap();
    assert_eq!([exact.get(2, 0), exact.get(2, 1)], [Some(0), Some(0)]);
    let Err(NotExact::NoScale { uncovered, needs }) = least_exact_multipliers(&covered, &pattern(3, &[(1, 0)])) else {
        panic!("2^1000 is beyond 2^53");
    };
    assert_eq!((uncovered.step, needs), (ExactStep::Product(1), None));
    assert_eq!(uncovered.value.to_string(), "2^1000");
}
