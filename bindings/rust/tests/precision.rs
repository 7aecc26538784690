//! Factors held against precision matrices.

use redstartgilt::{
    CholeskyFactor, Error, FactorMismatch, LdlFactor, Permutation, Precision, PrecisionDifference, PrecisionError,
    WholeFactor, WholePrecision, MAX_DIMENSION,
};

type Triplets<V = f64> = Vec<(usize, usize, V)>;

struct Random(u64);

impl Random {
    fn below(&mut self, bound: usize) -> usize {
        self.0 = self
            .0
            .wrapping_mul(6_364_136_223_846_793_005)
            .wrapping_add(1_442_695_040_888_963_407);
        ((self.0 >> 33) % bound as u64) as usize
    }

    /// From -1 to 1.
    fn number(&mut self) -> f64 {
        self.below(1 << 30) as f64 / (1 << 29) as f64 - 1.0
    }

    fn permutation(&mut self, n: usize) -> Permutation {
        let mut places = (0..n).collect::<Vec<_>>();
        for place in (1..n).rev() {
            places.swap(place, self.below(place + 1));
        }
        Permutation::from_orig_to_perm(places).unwrap()
    }
}

/// A sparse positive definite matrix, its lower triangle: diagonally dominant, at sizes from 2^-size to 2^size.
fn matrix(random: &mut Random, n: usize, size: i32) -> Triplets {
    let scale = (0..n)
        .map(|_| 2f64.powi(random.below(2 * size as usize + 1) as i32 - size))
        .collect::<Vec<_>>();
    let mut diagonal = vec![0.5; n];
    let mut triplets = Vec::new();
    for column in 0..n {
        for row in column + 1..n {
            if random.below(n) < 4 {
                let value = random.number();
                diagonal[row] += value.abs();
                diagonal[column] += value.abs();
                triplets.push((row, column, value * scale[row] * scale[column]));
            }
        }
    }
    triplets.extend((0..n).map(|cell| (cell, cell, diagonal[cell] * scale[cell] * scale[cell])));
    triplets
}

/// The lower factor, and that with pivots, of a matrix in this order.
fn factors(n: usize, triplets: &Triplets, order: &Permutation) -> (CholeskyFactor, LdlFactor) {
    let mut q = vec![vec![0.0; n]; n];
    for (row, column, value) in triplets {
        let (one, other) = (order.orig_to_perm[*row], order.orig_to_perm[*column]);
        q[one.max(other)][one.min(other)] = *value;
    }
    let (mut lower, mut unit, mut pivots) = (q.clone(), q.clone(), vec![0.0; n]);
    for column in 0..n {
        for row in column..n {
            let sum: f64 = (0..column).map(|k| lower[row][k] * lower[column][k]).sum();
            let left = q[row][column] - sum;
            lower[row][column] = if row == column {
                left.sqrt()
            } else {
                left / lower[column][column]
            };
            let sum: f64 = (0..column).map(|k| unit[row][k] * pivots[k] * unit[column][k]).sum();
            let left = q[row][column] - sum;
            if row == column {
                pivots[column] = left;
            } else {
                unit[row][column] = left / pivots[column];
            }
        }
    }
    let kept = |matrix: &Vec<Vec<f64>>, from: usize| {
        let entries = (0..n).flat_map(|row| (0..n).map(move |column| (row, column)));
        let entries = entries.filter(|(row, column)| *row >= column + from && matrix[*row][*column] != 0.0);
        entries
            .map(|(row, column)| (row, column, matrix[row][column]))
            .collect::<Vec<_>>()
    };
    let cholesky = CholeskyFactor::from_triplets(n, &kept(&lower, 0)).unwrap();
    let ldl = LdlFactor::from_triplets(n, &kept(&unit, 1), pivots).unwrap();
    (
        cholesky.with_permutation(order.clone()).unwrap(),
        ldl.with_permutation(order.clone()).unwrap(),
    )
}

/// What factorising in floats gives is within the bound, whatever sizes rows have.
#[test]
fn factors_are_within_rounding() {
    let mut random = Random(5);
    for case in 0..300 {
        let n = 1 + random.below(40);
        let triplets = matrix(&mut random, n, case % 120);
        let precision = Precision::from_triplets(n, &triplets).unwrap();
        let order = random.permutation(n);
        let (cholesky, ldl) = factors(n, &triplets, &order);
        assert_eq!(cholesky.check_against(&precision), Ok(()), "{case}");
        assert_eq!(ldl.check_against(&precision), Ok(()), "{case}");
        assert!(!cholesky.looks_like_pivots_on_diagonal(), "{case}");
    }
}

/// An entry of Q, or of the diagonal of L or D, that is off by a billionth of itself is found, that of Q in cells.
#[test]
fn what_is_off_is_found() {
    let mut random = Random(6);
    for case in 0..300 {
        let n = 1 + random.below(30);
        let mut triplets = matrix(&mut random, n, case % 20);
        let order = random.permutation(n);
        let (cholesky, ldl) = factors(n, &triplets, &order);
        let place = random.below(triplets.len());
        let (row, column, was) = triplets[place];
        triplets[place].2 *= 1.0 + 1e-9;
        let off = triplets[place].2;
        let precision = Precision::from_triplets(n, &triplets).unwrap();
        for mismatch in [cholesky.check_against(&precision), ldl.check_against(&precision)] {
            let Err(FactorMismatch::Differs(told)) = mismatch else {
                panic!("{case}: {mismatch:?}");
            };
            assert_eq!((told.row, told.column, told.precision), (row, column, off), "{case}");
            assert!((told.product - was).abs() <= told.bound, "{case}");
            assert!((told.product - told.precision).abs() > told.bound, "{case}");
        }
        triplets[place].2 = was;
        let precision = Precision::from_triplets(n, &triplets).unwrap();
        let cell = random.below(n);
        let mut lower = cholesky.lower_triplets();
        let diagonal = lower
            .iter_mut()
            .find(|(row, column, _)| (*row, *column) == (cell, cell));
        diagonal.unwrap().2 *= 1.0 + 1e-9;
        let off = CholeskyFactor::from_triplets(n, &lower).unwrap();
        let found = off.with_permutation(order.clone()).unwrap().check_against(&precision);
        assert!(matches!(found, Err(FactorMismatch::Differs(_))), "{case}: {found:?}");
        let mut pivots = ldl.pivots().to_vec();
        pivots[cell] *= 1.0 + 1e-9;
        let off = LdlFactor::from_triplets(n, &ldl.lower_triplets(), pivots).unwrap();
        let found = off.with_permutation(order.clone()).unwrap().check_against(&precision);
        assert!(matches!(found, Err(FactorMismatch::Differs(_))), "{case}: {found:?}");
    }
}

/// Numbers whose products are below the least float, and above the largest.
#[test]
fn the_ends_of_floats() {
    let tiny = 2f64.powi(-537);
    let factor = CholeskyFactor::from_triplets(2, &[(0, 0, tiny), (1, 0, tiny), (1, 1, 1.5 * tiny)]).unwrap();
    let square = tiny * tiny;
    assert_eq!(square, f64::from_bits(1));
    let precision = |last: f64| Precision::from_triplets(2, &[(0, 0, square), (1, 0, square), (1, 1, last)]).unwrap();
    assert_eq!(factor.check_against(&precision(square * 3.0)), Ok(()));
    assert!(factor.check_against(&precision(square * 3000.0)).is_err());
    let large = CholeskyFactor::from_triplets(1, &[(0, 0, 1e200)]).unwrap();
    let precision = Precision::from_triplets(1, &[(0, 0, f64::MAX)]).unwrap();
    let Err(FactorMismatch::Differs(told)) = large.check_against(&precision) else {
        panic!();
    };
    assert_eq!((told.product, told.precision), (f64::INFINITY, f64::MAX));
}

/// In whole numbers a difference of 1 is found, at any size.
#[test]
fn whole_numbers_are_equal() {
    let mut random = Random(7);
    for case in 0..200 {
        let n = 1 + random.below(12);
        let mut lower: Triplets<i64> = (0..n).map(|cell| (cell, cell, 1)).collect();
        for column in 0..n {
            for row in column + 1..n {
                if random.below(3) == 0 {
                    lower.push((row, column, random.below(1 << (case % 29)) as i64 - (1 << 10)));
                }
            }
        }
        let order = random.permutation(n);
        let mut q = vec![vec![0i64; n]; n];
        for (row, k, value) in &lower {
            for (other, _, second) in lower.iter().filter(|(_, column, _)| column == k) {
                q[order.perm_to_orig[*row]][order.perm_to_orig[*other]] += value * second;
            }
        }
        let entries = (0..n).flat_map(|row| (0..=row).map(move |column| (row, column)));
        let mut triplets = entries
            .map(|(row, column)| (row, column, q[row][column]))
            .collect::<Vec<_>>();
        let factor = WholeFactor::from_triplets(n, &lower).unwrap();
        let precision = WholePrecision::from_triplets(n, &triplets).unwrap();
        assert_eq!(factor.check_against(&precision, &order), Ok(()), "{case}");
        let place = random.below(triplets.len());
        let (row, column, was) = triplets[place];
        triplets[place].2 += 1;
        let precision = WholePrecision::from_triplets(n, &triplets).unwrap();
        let differs = PrecisionDifference {
            row,
            column,
            product: i128::from(was),
            precision: i128::from(was + 1),
            bound: 0,
        };
        let told = factor.check_against(&precision, &order);
        assert_eq!(told, Err(FactorMismatch::Differs(differs)), "{case}");
    }
}

#[test]
fn refusals() {
    let precision = Precision::from_triplets(1, &[(0, 0, 1.0)]).unwrap();
    let factor = CholeskyFactor::from_triplets(2, &[(0, 0, 1.0), (1, 1, 1.0)]).unwrap();
    let other_dimension = FactorMismatch::Refused(Error::DimensionMismatch);
    assert_eq!(factor.check_against(&precision), Err(other_dimension));
    let ldl = LdlFactor::from_triplets(2, &[], vec![1.0, 1.0]).unwrap();
    assert_eq!(ldl.check_against(&precision), Err(other_dimension));
    let whole = WholeFactor::from_triplets(1, &[(0, 0, (1 << 53) + 1)]).unwrap();
    let wholes = WholePrecision::from_triplets(1, &[(0, 0, 1)]).unwrap();
    for (permutation, error) in [
        (Permutation::identity(1), Error::NumberTooLarge),
        (Permutation::identity(2), Error::DimensionMismatch),
        (
            Permutation {
                orig_to_perm: vec![1],
                perm_to_orig: vec![0],
            },
            Error::IndexTooLarge,
        ),
    ] {
        let refused = whole.check_against(&wholes, &permutation);
        assert_eq!(refused, Err(FactorMismatch::Refused(error)));
    }
    for (n, triplets, error) in [
        (MAX_DIMENSION + 1, vec![], PrecisionError::Refused(Error::TooLarge)),
        (1, vec![(0, 1, 1.0)], PrecisionError::Refused(Error::BrokenRows)),
        (1, vec![(1, 0, 1.0)], PrecisionError::Refused(Error::BrokenRows)),
        (
            1,
            vec![(0, 0, 1.0), (0, 0, 1.0)],
            PrecisionError::Refused(Error::BrokenRows),
        ),
        (
            2,
            vec![(1, 0, f64::NAN)],
            PrecisionError::NotFinite { row: 1, column: 0 },
        ),
        (
            2,
            vec![(0, 1, 0.0)],
            PrecisionError::AboveDiagonal { row: 0, column: 1 },
        ),
    ] {
        assert_eq!(Precision::from_triplets(n, &triplets), Err(error));
    }
    let starts = Precision::new(1, vec![0], vec![], vec![]);
    assert_eq!(starts, Err(PrecisionError::Refused(Error::BrokenStarts)));
    let above = WholePrecision::from_triplets(2, &[(0, 1, 0)]);
    assert_eq!(above, Err(PrecisionError::AboveDiagonal { row: 0, column: 1 }));
    // Of no cells at all.
    let none = Precision::from_triplets(0, &[]).unwrap();
    assert_eq!(
        CholeskyFactor::from_triplets(0, &[]).unwrap().check_against(&none),
        Ok(())
    );
}
