//! A workspace used again gives the same answers.

use redstartgilt::{
    dependency_chain_in, selected_inverse_diag_with_diagnostics, selected_inverse_diag_with_diagnostics_in,
    selected_inverse_diag_with_limit, selected_inverse_diag_with_limit_in, selected_inverse_entries,
    selected_inverse_entries_in, selected_inverse_entries_whole_with_limit_in, selected_inverse_entries_with_limit,
    selected_inverse_entries_with_limit_in, selected_inverse_transformed_covariances,
    selected_inverse_transformed_covariances_in, selected_inverse_transformed_covariances_with_limit,
    selected_inverse_transformed_covariances_with_limit_in, selected_inverse_transformed_diag,
    selected_inverse_transformed_diag_in, selected_inverse_transformed_diag_with_limit,
    selected_inverse_transformed_diag_with_limit_in, CholeskyFactor, SparseRowOperator, SparseSymmetricPattern,
    WholeFactor, Workspace,
};

/// The same factors at each run: a linear congruence chooses pattern and values.
fn factor(n: usize, seed: u64) -> CholeskyFactor {
    let mut state = seed;
    let mut next = move || {
        state = state
            .wrapping_mul(6_364_136_223_846_793_005)
            .wrapping_add(1_442_695_040_888_963_407);
        (state >> 33) as usize
    };
    let mut triplets = Vec::new();
    for column in 0..n {
        triplets.push((column, column, 1.0 + (next() % 100) as f64 / 37.0));
        for row in column + 1..n {
            if next() % 4 == 0 {
                triplets.push((row, column, (next() % 200) as f64 / 61.0 - 1.5));
            }
        }
    }
    CholeskyFactor::from_triplets(n, &triplets).unwrap()
}

#[test]
fn a_used_workspace_gives_the_same() {
    let mut workspace = Workspace::new();
    assert_eq!(workspace.bytes(), 0);
    for (n, seed) in [(12, 1), (3, 2), (30, 3), (0, 4), (1, 5), (30, 6), (7, 7)] {
        let factor = factor(n, seed);
        let requested = SparseSymmetricPattern::diagonal(n);
        assert_eq!(
            selected_inverse_entries_in(&factor, &requested, &mut workspace),
            selected_inverse_entries(&factor, &requested)
        );
        for limit in [0, 1, n, usize::MAX] {
            assert_eq!(
                selected_inverse_entries_with_limit_in(&factor, &requested, limit, &mut workspace),
                selected_inverse_entries_with_limit(&factor, &requested, limit)
            );
        }
        assert_eq!(
            selected_inverse_diag_with_diagnostics_in(&factor, &mut workspace),
            selected_inverse_diag_with_diagnostics(&factor)
        );
        let rows = (0..n).map(|cell| vec![(cell, 1.0), (n - 1 - cell, -0.5)]).collect();
        let operator = SparseRowOperator::new(n, rows).unwrap();
        assert_eq!(
            selected_inverse_transformed_diag_in(&factor, &operator, &mut workspace),
            selected_inverse_transformed_diag(&factor, &operator)
        );
        let (cells, pairs) = (SparseRowOperator::identity(n), (0..n).map(|cell| (cell, n - 1 - cell)));
        let pairs = pairs.collect::<Vec<_>>();
        assert_eq!(
            selected_inverse_transformed_covariances_in(&factor, &operator, &cells, &pairs, &mut workspace),
            selected_inverse_transformed_covariances(&factor, &operator, &cells, &pairs)
        );
        for limit in [0, 1, n, usize::MAX] {
            assert_eq!(
                selected_inverse_diag_with_limit_in(&factor, limit, &mut workspace),
                selected_inverse_diag_with_limit(&factor, limit)
            );
            assert_eq!(
                selected_inverse_transformed_diag_with_limit_in(&factor, &operator, limit, &mut workspace),
                selected_inverse_transformed_diag_with_limit(&factor, &operator, limit)
            );
            let (a, b) = (&operator, &cells);
            assert_eq!(
                selected_inverse_transformed_covariances_with_limit_in(&factor, a, b, &pairs, limit, &mut workspace),
                selected_inverse_transformed_covariances_with_limit(&factor, a, b, &pairs, limit)
            );
        }
    }
    // 30 columns: 31 starts, 465 rows and values, 15 + 465 + 4 * 30 words of scratch.
    assert_eq!(workspace.bytes(), 4 * (31 + 465 + 600) + 8 * 465);
}

#[test]
fn a_limit_keeps_the_lists_short() {
    let mut workspace = Workspace::new();
    let factor = factor(30, 3);
    let requested = SparseSymmetricPattern::new(30);
    selected_inverse_entries_with_limit_in(&factor, &requested, 10, &mut workspace).unwrap();
    assert_eq!(workspace.bytes(), 4 * (31 + 10 + 600) + 8 * 10);
}

/// What the documentation says of dimension 4,096, in megabytes.
#[test]
fn the_memory_of_the_largest_dimension() {
    let megabytes = |workspace: &Workspace| (workspace.bytes() as f64 / 1e6).round();
    let n = redstartgilt::MAX_DIMENSION;
    let ones = (0..n).map(|cell| (cell, cell, 1.0)).collect::<Vec<_>>();
    let whole_ones = (0..n).map(|cell| (cell, cell, 1)).collect::<Vec<_>>();
    let factor = CholeskyFactor::from_triplets(n, &ones).unwrap();
    let whole_factor = WholeFactor::from_triplets(n, &whole_ones).unwrap();
    let requested = SparseSymmetricPattern::diagonal(n);
    let mut workspace = Workspace::new();
    selected_inverse_entries_with_limit_in(&factor, &requested, usize::MAX, &mut workspace).unwrap();
    assert_eq!(megabytes(&workspace), 135.0);
    let chain = dependency_chain_in(&factor, &requested, n - 1, n - 1, &mut workspace).unwrap();
    assert_eq!(chain, Some(vec![(n - 1, n - 1)]));
    assert_eq!(megabytes(&workspace), 168.0);
    let before = workspace.bytes();
    selected_inverse_entries_whole_with_limit_in(&whole_factor, &requested, usize::MAX, &mut workspace).unwrap();
    assert_eq!(((workspace.bytes() - before) as f64 / 1e6).round(), 134.0);
}

/// The recurrence on every pair, against the equation L Lᵀ Z = I.
#[test]
fn the_entries_solve_the_equation() {
    let factor = factor(30, 9);
    let n = factor.dimension();
    let mut all = SparseSymmetricPattern::new(n);
    for row in 0..n {
        for column in 0..=row {
            all.insert(row, column).unwrap();
        }
    }
    let inverse = selected_inverse_entries_with_limit(&factor, &all, usize::MAX)
        .unwrap()
        .inverse
        .unwrap();
    let mut lower = vec![vec![0.0; n]; n];
    for (row, column, value) in factor.lower_triplets() {
        lower[row][column] = value;
    }
    let largest = inverse.entries().map(|(_, _, value)| value.abs()).fold(1.0, f64::max);
    for row in 0..n {
        for column in 0..n {
            let mut sum = 0.0;
            for between in 0..n {
                let precision: f64 = (0..n).map(|k| lower[row][k] * lower[between][k]).sum();
                sum += precision * inverse.get(between, column).unwrap();
            }
            let expected = f64::from(u8::from(row == column));
            assert!((sum - expected).abs() < 1e-9 * largest, "({row}, {column}): {sum}");
        }
    }
}
