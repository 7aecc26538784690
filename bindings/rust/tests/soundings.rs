//! The soundings that the library's scope works through, by the safe functions.

use redstartgilt::{
    count_and_least, selected_inverse_diag, selected_inverse_diag_with_diagnostics, selected_inverse_entries,
    selected_inverse_entries_with_limit, selected_inverse_transformed_covariances, selected_inverse_transformed_diag,
    stabilize_variances, CholeskyFactor, Error, Permutation, SelectedInverseEntries, SelectedInverseStatus,
    SparseRowOperator, SparseSymmetricPattern, VarianceFloor,
};

fn f2() -> CholeskyFactor {
    CholeskyFactor::new(2, vec![0, 2, 3], vec![0, 1, 1], vec![1.0, 2.0, 1.0]).unwrap()
}

fn f3() -> CholeskyFactor {
    CholeskyFactor::new(3, vec![0, 3, 4, 5], vec![0, 1, 2, 1, 2], vec![1.0, 2.0, 3.0, 1.0, 1.0]).unwrap()
}

fn one(diagonal: f64) -> CholeskyFactor {
    CholeskyFactor::new(1, vec![0, 1], vec![0], vec![diagonal]).unwrap()
}

fn none(n: usize) -> CholeskyFactor {
    CholeskyFactor::from_triplets(n, &[]).unwrap()
}

fn pattern(dimension: usize, pairs: &[(usize, usize)]) -> SparseSymmetricPattern {
    let mut pattern = SparseSymmetricPattern::new(dimension);
    for (row, column) in pairs {
        pattern.insert(*row, *column).unwrap();
    }
    pattern
}

fn select(factor: &CholeskyFactor, pairs: &[(usize, usize)], limit: usize) -> SelectedInverseEntries {
    selected_inverse_entries_with_limit(factor, &pattern(factor.dimension(), pairs), limit).unwrap()
}

#[test]
fn f2_within_the_limit() {
    let selected = select(&f2(), &[(0, 0)], 3);
    assert_eq!(selected.diagnostics.status, SelectedInverseStatus::Complete);
    assert!(selected.diagnostics.is_complete());
    assert_eq!(selected.diagnostics.requested_pairs, 1);
    assert_eq!(selected.diagnostics.closure_pairs, 3);
    assert_eq!(selected.diagnostics.factor_pairs, 3);
    assert_eq!(selected.diagnostics.closure_limit, 3);
    assert_eq!(selected.diagnostics.closure_over_factor, 1.0);
    let inverse = selected.inverse.unwrap();
    assert_eq!(inverse.dimension(), 2);
    assert_eq!(
        inverse.entries().collect::<Vec<_>>(),
        [(0, 0, 5.0), (1, 0, -2.0), (1, 1, 1.0)]
    );
    assert_eq!(inverse.get(0, 1), Some(-2.0));
    assert_eq!(inverse.get(1, 0), Some(-2.0));
    assert_eq!(inverse.get(2, 0), None);
    assert_eq!(inverse.get(0, usize::MAX), None);
    assert_eq!(inverse.diag(), [Some(5.0), Some(1.0)]);
    assert_eq!(inverse.diag_or_zero(), [5.0, 1.0]);
}

#[test]
fn f2_past_the_limit() {
    let selected = select(&f2(), &[(0, 0)], 2);
    assert_eq!(selected.diagnostics.status, SelectedInverseStatus::ClosureTooLarge);
    assert_eq!(selected.diagnostics.closure_pairs, 3);
    assert!(selected.inverse.is_none());
}

/// Limits that would be 0 to 5 if they were cut to 32 bits, and the largest: the set has 3 pairs. Each is told as given.
#[test]
fn limits_above_32_bits() {
    let cut = (0..6).map(|limit| (1 << 32) + limit);
    for limit in cut.chain([1 << 63, usize::MAX - 1, usize::MAX]) {
        let selected = select(&f2(), &[(0, 0)], limit);
        assert!(selected.diagnostics.is_complete(), "{limit}");
        assert_eq!(selected.diagnostics.closure_pairs, 3);
        assert_eq!(selected.diagnostics.closure_limit, limit);
        assert_eq!(selected.inverse.unwrap().get(0, 0), Some(5.0));
    }
}

#[test]
fn f2_with_other_requests() {
    assert_eq!(select(&f2(), &[(1, 0)], 3).diagnostics.closure_pairs, 2);
    let corner = select(&f2(), &[(1, 1)], 3);
    assert_eq!(corner.diagnostics.closure_pairs, 1);
    let corner = corner.inverse.unwrap();
    assert_eq!(corner.get(0, 0), None);
    assert_eq!(corner.diag(), [None, Some(1.0)]);
    assert_eq!(corner.diag_or_zero(), [0.0, 1.0]);
    assert_eq!(select(&f2(), &[(0, 1), (1, 0)], 3).diagnostics.requested_pairs, 1);
}

#[test]
fn no_requests() {
    let selected = select(&f2(), &[], 0);
    assert!(selected.diagnostics.is_complete());
    assert_eq!(selected.diagnostics.closure_pairs, 0);
    assert!(selected.inverse.unwrap().is_empty());
    let selected = select(&none(0), &[], 3);
    assert!(selected.diagnostics.is_complete());
    assert_eq!(selected.diagnostics.closure_over_factor, 0.0);
    let inverse = selected.inverse.unwrap();
    assert_eq!(inverse.diag(), [None; 0]);
    assert_eq!(inverse.diag_or_zero(), [0.0; 0]);
}

#[test]
fn f3_needs_a_pair_that_it_lacks() {
    let selected = select(&f3(), &[(0, 0)], 6);
    assert!(selected.diagnostics.is_complete());
    assert_eq!(selected.diagnostics.factor_pairs, 5);
    let inverse = selected.inverse.unwrap();
    let bits = inverse
        .entries()
        .map(|(row, column, value)| (row, column, value.to_bits()))
        .collect::<Vec<_>>();
    assert_eq!(
        bits,
        [
            (0, 0, 0x402c000000000000),
            (1, 0, 0xc000000000000000),
            (2, 0, 0xc008000000000000),
            (1, 1, 0x3ff0000000000000),
            (2, 1, 0x8000000000000000),
            (2, 2, 0x3ff0000000000000),
        ]
    );
    let selected = select(&f3(), &[(0, 0)], 5);
    assert_eq!(selected.diagnostics.status, SelectedInverseStatus::ClosureTooLarge);
    assert_eq!(selected.diagnostics.closure_pairs, 6);
}

#[test]
fn one_column() {
    let diagonal = SparseSymmetricPattern::diagonal(1);
    assert_eq!(
        selected_inverse_entries(&one(0.0), &diagonal),
        Err(Error::NonPositiveDefinite)
    );
    assert_eq!(
        selected_inverse_entries(&one(-0.0), &diagonal),
        Err(Error::NonPositiveDefinite)
    );
    assert_eq!(
        selected_inverse_entries(&none(1), &diagonal),
        Err(Error::NonPositiveDefinite)
    );
    assert_eq!(selected_inverse_diag(&one(2.0)).unwrap().values, [0.25]);
    assert_eq!(
        CholeskyFactor::new(1, vec![0, 1], vec![0], vec![f64::NAN]),
        Err(Error::NotFiniteEntry(Some((0, 0))))
    );
}

#[test]
fn too_many_columns() {
    assert_eq!(CholeskyFactor::from_triplets(4_097, &[]), Err(Error::TooLarge));
    assert_eq!(
        CholeskyFactor::new(4_097, vec![0; 4_098], vec![], vec![]),
        Err(Error::TooLarge)
    );
    assert_eq!(CholeskyFactor::from_triplets(usize::MAX, &[]), Err(Error::TooLarge));
}

#[test]
fn an_operator_row() {
    let operator = SparseRowOperator::new(2, vec![vec![(0, 1.0), (1, 1.0)], vec![], vec![(1, 3.0)]]).unwrap();
    let result = selected_inverse_transformed_diag(&f2(), &operator).unwrap();
    assert_eq!(result.estimate.unwrap().values, [2.0, 0.0, 9.0]);
    assert_eq!(result.diagnostics.requested_pairs, 3);
    assert_eq!(result.diagnostics.closure_limit, 30);
}

fn full() -> CholeskyFactor {
    let values = vec![1.0, 2.0, 3.0, 1.0, 4.0, 1.0];
    CholeskyFactor::new(3, vec![0, 3, 5, 6], vec![0, 1, 2, 1, 2, 2], values).unwrap()
}

fn covariances(
    factor: &CholeskyFactor,
    a: &SparseRowOperator,
    b: &SparseRowOperator,
    row_pairs: &[(usize, usize)],
) -> Vec<f64> {
    let result = selected_inverse_transformed_covariances(factor, a, b, row_pairs).unwrap();
    assert!(result.diagnostics.is_complete());
    result.covariances.unwrap()
}

#[test]
fn row_pairs_of_two_operators() {
    let a = SparseRowOperator::new(2, vec![vec![(0, 1.0)], vec![(0, 1.0), (1, 1.0)]]).unwrap();
    let b = SparseRowOperator::new(2, vec![vec![], vec![(1, 2.0)], vec![(0, 3.0), (1, -2.0)]]).unwrap();
    let all = [(0, 0), (0, 1), (0, 2), (1, 0), (1, 1), (1, 2)];
    assert_eq!(covariances(&f2(), &a, &b, &all), [0.0, -4.0, 19.0, 0.0, -2.0, 11.0]);
    // A row pair that repeats has an output each time, and is requested once.
    let result = selected_inverse_transformed_covariances(&f2(), &a, &b, &[(0, 1), (0, 1)]).unwrap();
    assert_eq!(result.covariances, Some(vec![-4.0, -4.0]));
    assert_eq!(result.diagnostics.requested_pairs, 1);
    assert_eq!(result.diagnostics.closure_pairs, 2);
    assert_eq!(result.diagnostics.closure_limit, 30);
}

#[test]
fn no_row_pairs() {
    let (a, none) = (
        SparseRowOperator::identity(2),
        SparseRowOperator::new(2, vec![]).unwrap(),
    );
    for (one, other) in [(&a, &a), (&a, &none), (&none, &none)] {
        let result = selected_inverse_transformed_covariances(&f2(), one, other, &[]).unwrap();
        assert_eq!(result.diagnostics.status, SelectedInverseStatus::Complete);
        assert_eq!(result.diagnostics.closure_pairs, 0);
        assert_eq!(result.covariances, Some(vec![]));
    }
}

/// The covariance of a row with itself is its variance, bit for bit, also where it is rounded, overflows or is NaN.
#[test]
fn a_row_with_itself() {
    let rows = vec![
        vec![(0, 0.1), (1, 0.2), (2, 0.3)],
        vec![(2, 0.3), (1, 0.2), (0, 0.1)],
        vec![],
        vec![(1, 1e-3), (1, 1e3)],
        vec![(0, 1e200)],
        vec![(0, f64::NAN), (2, 1.0)],
        vec![(0, -0.0)],
    ];
    let operator = SparseRowOperator::new(3, rows).unwrap();
    let itself = (0..operator.nrows()).map(|row| (row, row)).collect::<Vec<_>>();
    let rounded =
        CholeskyFactor::new(3, vec![0, 3, 4, 5], vec![0, 1, 2, 1, 2], vec![1.1, 0.7, -0.3, 0.9, 3.0]).unwrap();
    for factor in [full(), f3(), rounded] {
        let variances = selected_inverse_transformed_diag(&factor, &operator).unwrap();
        let result = selected_inverse_transformed_covariances(&factor, &operator, &operator, &itself).unwrap();
        assert_eq!(result.diagnostics, variances.diagnostics);
        let (values, expected) = (result.covariances.unwrap(), variances.estimate.unwrap().values);
        for (row, (value, variance)) in values.iter().zip(&expected).enumerate() {
            let same = value.to_bits() == variance.to_bits() || (value.is_nan() && variance.is_nan());
            assert!(same, "row {row}: {value:?} in place of {variance:?}");
        }
        assert_eq!(values.len(), expected.len());
        assert!(values[5].is_nan());
    }
}

/// On whole numbers the sums are exact, so the order of the operators does not matter.
#[test]
fn operators_exchanged() {
    let a = SparseRowOperator::new(3, vec![vec![(0, 2.0), (2, -3.0)], vec![(1, 1.0), (1, 4.0), (0, -7.0)]]).unwrap();
    let b = SparseRowOperator::new(3, vec![vec![(1, 5.0), (2, 1.0)], vec![(2, 11.0)], vec![]]).unwrap();
    let pairs = [(0, 0), (0, 1), (1, 0), (1, 1), (1, 2)];
    let exchanged = pairs.map(|(row, other)| (other, row));
    for factor in [full(), f3()] {
        assert_eq!(
            covariances(&factor, &a, &b, &pairs),
            covariances(&factor, &b, &a, &exchanged)
        );
    }
    assert_eq!(covariances(&full(), &a, &b, &[(0, 0)]), [-153.0]);
}

/// A's terms outside, B's inside, the weights multiplied first.
#[test]
fn the_order_of_a_covariance() {
    let a = SparseRowOperator::new(3, vec![vec![(0, 0.1), (1, 0.2), (2, 0.3)]]).unwrap();
    let b = SparseRowOperator::new(3, vec![vec![(2, 0.7), (0, 1.1), (1, 0.13)]]).unwrap();
    let one = covariances(&full(), &a, &b, &[(0, 0)])[0];
    let other = covariances(&full(), &b, &a, &[(0, 0)])[0];
    let inverse = selected_inverse_entries(&full(), &pattern(3, &[(0, 0)]))
        .unwrap()
        .inverse
        .unwrap();
    let summed = |a: &SparseRowOperator, b: &SparseRowOperator| {
        let mut sum = 0.0;
        for (cell, weight) in &a.rows[0] {
            for (place, other) in &b.rows[0] {
                sum += (weight * other) * inverse.get(*cell, *place).unwrap();
            }
        }
        sum
    };
    assert_eq!(one.to_bits(), summed(&a, &b).to_bits());
    assert_eq!(other.to_bits(), summed(&b, &a).to_bits());
    assert_ne!(one.to_bits(), other.to_bits());
    let large = SparseRowOperator::new(1, vec![vec![(0, 1e200)]]).unwrap();
    assert_eq!(
        covariances(&self::one(1e150), &large, &large, &[(0, 0)]),
        [f64::INFINITY]
    );
}

#[test]
fn covariances_past_the_limit() {
    // A full first column: (0, 0) needs every pair, (1, 0) a few.
    let n = 60;
    let triplets = (0..n)
        .map(|row| (row, 0, 1.0))
        .chain((1..n).map(|row| (row, row, 1.0)))
        .collect::<Vec<_>>();
    let factor = CholeskyFactor::from_triplets(n, &triplets).unwrap();
    let cells = SparseRowOperator::identity(n);
    let result = selected_inverse_transformed_covariances(&factor, &cells, &cells, &[(1, 0), (0, 0)]).unwrap();
    assert_eq!(result.diagnostics.status, SelectedInverseStatus::ClosureTooLarge);
    assert_eq!(result.diagnostics.requested_pairs, 2);
    assert_eq!(result.diagnostics.closure_pairs, result.diagnostics.closure_limit + 1);
    assert_eq!(result.covariances, None);
    assert_eq!(covariances(&factor, &cells, &cells, &[(1, 0)]), [-1.0]);
}

#[test]
fn permutations() {
    let permutation = Permutation::from_orig_to_perm(vec![2, 0, 1]).unwrap();
    assert_eq!(permutation.orig_to_perm, [2, 0, 1]);
    assert_eq!(permutation.perm_to_orig, [1, 2, 0]);
    assert_eq!(
        Permutation::from_orig_to_perm(vec![0, 0, 9]),
        Err(Error::DuplicateEntry)
    );
    assert_eq!(
        Permutation::new(vec![2, 0, 1], vec![1, 2, 0]).unwrap(),
        Permutation::from_orig_to_perm(vec![2, 0, 1]).unwrap()
    );
    assert_eq!(Permutation::identity(3).validate(), Ok(()));
    assert_eq!(
        permutation.permute_factor_to_original(&[10.0, 20.0, 30.0]).unwrap(),
        [30.0, 10.0, 20.0]
    );
}

#[test]
fn variances_in_original_order() {
    let by_column = selected_inverse_diag_with_diagnostics(&f3()).unwrap();
    assert_eq!(by_column.estimate.values, [14.0, 1.0, 1.0]);
    assert_eq!(by_column.estimate.num_negative, 0);
    assert_eq!(by_column.estimate.min_value, 1.0);
    let permutation = Permutation::from_orig_to_perm(vec![2, 0, 1]).unwrap();
    let factor = f3().with_permutation(permutation.clone()).unwrap();
    assert_eq!(factor.permutation(), permutation);
    assert_eq!(selected_inverse_diag(&factor).unwrap().values, [1.0, 14.0, 1.0]);
    assert_eq!(
        factor.permute_factor_to_original(&[14.0, 1.0, 2.0]).unwrap(),
        [2.0, 14.0, 1.0]
    );
    // Cell 1 is the factor's first column.
    let operator = SparseRowOperator::new(3, vec![vec![(1, 2.0)]]).unwrap();
    let result = selected_inverse_transformed_diag(&factor, &operator).unwrap();
    assert_eq!(result.estimate.unwrap().values, [56.0]);
    // Both operators are moved: cell 2 is the factor's second column.
    let cells = SparseRowOperator::identity(3);
    assert_eq!(covariances(&factor, &operator, &cells, &[(0, 1), (0, 2)]), [28.0, -4.0]);
    assert_eq!(covariances(&factor, &cells, &operator, &[(1, 0), (2, 0)]), [28.0, -4.0]);
}

#[test]
fn floors() {
    let stabilized = stabilize_variances(&[4.0, -2.0, 0.0], VarianceFloor::PositiveMean { scale: 0.5 }).unwrap();
    assert_eq!(stabilized.floor, 2.0);
    assert_eq!(stabilized.values, [4.0, 2.0, 2.0]);
    assert_eq!(stabilized.floor_hits, 2);
    let stabilized = stabilize_variances(&[4.0, -2.0, 0.0], VarianceFloor::default()).unwrap();
    assert_eq!(stabilized.values, [4.0, 0.0, 0.0]);
    assert_eq!(stabilized.floor_hits, 2);
}

#[test]
fn counts_and_leasts() {
    let counted = count_and_least(&[3.0, -1.0, f64::NAN, -0.5]);
    assert_eq!((counted.num_negative, counted.min_value), (2, -1.0));
    assert_eq!(count_and_least(&[]).min_value, 0.0);
    assert_eq!(count_and_least(&[f64::NAN]).min_value, f64::INFINITY);
    assert_eq!(count_and_least(&[-0.0, 0.0]).min_value.to_bits(), (-0.0f64).to_bits());
}

#[test]
fn patterns() {
    let pairs = |pattern: SparseSymmetricPattern| pattern.pairs.into_iter().collect::<Vec<_>>();
    assert_eq!(
        pairs(SparseSymmetricPattern::from_cholesky_factor(&f3())),
        [(0, 0), (1, 0), (1, 1), (2, 0), (2, 2)]
    );
    // Above the diagonal and 0.0 are dropped.
    let factor = CholeskyFactor::from_triplets(2, &[(0, 0, 1.0), (1, 0, -0.0), (0, 1, 5.0), (1, 1, 1.0)]).unwrap();
    assert_eq!(factor.nnz(), 4);
    assert_eq!(factor.lower_triplets(), [(0, 0, 1.0), (1, 1, 1.0)]);
    assert_eq!(
        pairs(SparseSymmetricPattern::from_cholesky_factor(&factor)),
        [(0, 0), (1, 1)]
    );
    let operator = SparseRowOperator::new(3, vec![vec![(2, 1.0), (0, 1.0)], vec![(1, 1.0)]]).unwrap();
    assert_eq!(
        pairs(SparseSymmetricPattern::from_transformed_operator(&operator).unwrap()),
        [(0, 0), (1, 1), (2, 0), (2, 2)]
    );
    assert_eq!(
        pairs(SparseSymmetricPattern::from_cholesky_factor(&none(0))),
        [(0, 0); 0]
    );
}

/// All pairs of the largest dimension, so that the lists are as long as they ever are.
#[test]
fn the_largest_dimension() {
    let n = redstartgilt::MAX_DIMENSION;
    let triplets = (0..n)
        .map(|column| (column, column, 2.0))
        .chain((0..n - 1).map(|column| (column + 1, column, 1.0)))
        .collect::<Vec<_>>();
    let factor = CholeskyFactor::from_triplets(n, &triplets).unwrap();
    let variances = selected_inverse_diag(&factor).unwrap().values;
    assert_eq!(variances[n - 1], 0.25);
    assert_eq!(variances[n - 2], 0.3125);
    // The last row needs the row before it no more than itself: (n-1, c) depends on (n-1, c+1).
    let corner = select(&factor, &[(n - 1, 0)], usize::MAX);
    assert_eq!(corner.diagnostics.closure_pairs, n);
}
