//! The stack that calls need in the largest dimension.

use redstartgilt::{
    dependency_chain, selected_inverse_diag, selected_inverse_entries_ldl, selected_inverse_entries_ldl_with_limit,
    selected_inverse_entries_whole, selected_inverse_entries_with_limit, selected_inverse_transformed_covariances,
    selected_inverse_transformed_diag, CholeskyFactor, LdlFactor, Permutation, SparseRowOperator,
    SparseSymmetricPattern, WholeFactor, MAX_DIMENSION, STACK_BYTES,
};
use std::thread;

const N: usize = MAX_DIMENSION;

/// The side of a square grid of N cells.
const SIDE: usize = 64;

/// A factor with the entries that natural order gives for that grid: each cell with the next `SIDE`.
fn grid() -> CholeskyFactor {
    let column = |column: usize| {
        let rows = column..N.min(column + SIDE + 1);
        rows.map(move |row| (row, column, if row == column { 2.0 } else { -0.01 }))
    };
    let entries = (0..N).flat_map(column).collect::<Vec<_>>();
    let backwards = Permutation::from_orig_to_perm((0..N).rev().collect()).unwrap();
    let factor = CholeskyFactor::from_triplets(N, &entries).unwrap();
    factor.with_permutation(backwards).unwrap()
}

/// A full first column, so that its diagonal needs all pairs.
fn arrow() -> CholeskyFactor {
    let first = (1..N).map(|row| (row, 0, 1.0));
    let entries = (0..N).map(|cell| (cell, cell, 1.0)).chain(first).collect::<Vec<_>>();
    CholeskyFactor::from_triplets(N, &entries).unwrap()
}

/// Those entries below the diagonal of another factor, with pivots of 4.
fn with_pivots(factor: &CholeskyFactor) -> LdlFactor {
    let entries = factor.lower_triplets().into_iter();
    let below = entries.filter(|(row, column, _)| row > column).collect::<Vec<_>>();
    LdlFactor::from_triplets(N, &below, vec![4.0; N]).unwrap()
}

fn one_pair(row: usize, column: usize) -> SparseSymmetricPattern {
    let mut requested = SparseSymmetricPattern::new(N);
    requested.insert(row, column).unwrap();
    requested
}

/// Calls of dimension N, by either route; each looks at a part of its answer.
fn calls() -> Vec<Box<dyn Fn() + Send>> {
    let below = (1..N).map(|row| (row, row - 1, 1));
    let entries = (0..N).map(|cell| (cell, cell, 1)).chain(below).collect::<Vec<_>>();
    let whole = WholeFactor::from_triplets(N, &entries).unwrap();
    let rows = (0..N).map(|row| vec![(row, 1.0), (N - 1, 1.0)]).collect();
    let sums = SparseRowOperator::new(N, rows).unwrap();
    let row_pairs = (0..N).map(|row| (row, row)).collect::<Vec<_>>();
    let (diagonals, first, last) = (grid(), arrow(), grid());
    let (variances, covariances, chain) = (grid(), grid(), grid());
    let (pivots, first_pivots) = (with_pivots(&grid()), with_pivots(&arrow()));
    let other_sums = sums.clone();
    vec![
        Box::new(move || assert_eq!(selected_inverse_diag(&diagonals).unwrap().values[0], 0.25)),
        Box::new(move || {
            let found = selected_inverse_entries_with_limit(&first, &one_pair(0, 0), usize::MAX).unwrap();
            assert_eq!(found.diagnostics.closure_pairs, N * (N + 1) / 2);
            assert_eq!(found.inverse.unwrap().get(0, 0), Some(N as f64));
        }),
        Box::new(move || {
            let found = selected_inverse_entries_with_limit(&last, &one_pair(N - 1, 0), usize::MAX).unwrap();
            assert_eq!(found.diagnostics.closure_pairs, N);
        }),
        Box::new(move || {
            let found = selected_inverse_entries_ldl(&pivots, &SparseSymmetricPattern::diagonal(N)).unwrap();
            assert_eq!(found.diagnostics.closure_pairs, found.diagnostics.factor_pairs);
            assert_eq!(found.inverse.unwrap().get(N - 1, N - 1), Some(0.25));
        }),
        Box::new(move || {
            let found = selected_inverse_entries_ldl_with_limit(&first_pivots, &one_pair(0, 0), usize::MAX).unwrap();
            assert_eq!(found.diagnostics.closure_pairs, N * (N + 1) / 2);
            assert_eq!(found.inverse.unwrap().get(0, 0), Some(N as f64 / 4.0));
        }),
        Box::new(move || {
            let found = selected_inverse_entries_whole(&whole, &SparseSymmetricPattern::diagonal(N)).unwrap();
            assert_eq!(found.inverse.unwrap().get(0, 0), Some(N as i64));
        }),
        Box::new(move || {
            let found = selected_inverse_transformed_diag(&variances, &sums).unwrap();
            assert_eq!(found.diagnostics.requested_pairs, 2 * N - 1);
        }),
        Box::new(move || {
            let (a, b) = (&other_sums, &other_sums);
            let found = selected_inverse_transformed_covariances(&covariances, a, b, &row_pairs).unwrap();
            assert_eq!(found.diagnostics.requested_pairs, 2 * N - 1);
        }),
        Box::new(move || {
            let found = dependency_chain(&chain, &one_pair(0, 0), N - 1, N - 1).unwrap();
            assert_eq!(found.unwrap()[0], (0, 0));
        }),
    ]
}

/// A thread as the documentation of `STACK_BYTES` makes it.
#[test]
fn a_thread_with_a_small_stack() {
    for call in calls() {
        let thread = thread::Builder::new().stack_size(STACK_BYTES + 64 * 1_024);
        thread.spawn(call).unwrap().join().unwrap();
    }
}

/// The bytes of stack below the place where a function is called that it writes to: it runs on a list of words that all
/// have one value before.
#[cfg(target_arch = "x86_64")]
fn stack_used(function: &dyn Fn()) -> usize {
    extern "C" fn run(function: &&dyn Fn()) {
        function();
    }
    const BEFORE: u128 = 0x5a5a_5a5a_5a5a_5a5a_5a5a_5a5a_5a5a_5a5a;
    let mut words = vec![BEFORE; 4 * STACK_BYTES / size_of::<u128>()];
    // SAFETY: the function runs on the words as it would on a thread's stack, from their end, which is aligned; r12 is
    // kept by a call.
    unsafe {
        std::arch::asm!(
            "mov r12, rsp",
            "mov rsp, {end}",
            "call {run}",
            "mov rsp, r12",
            end = in(reg) words.as_mut_ptr_range().end,
            run = in(reg) run as extern "C" fn(&&dyn Fn()),
            in("rdi") std::ptr::from_ref(&function),
            out("r12") _,
            clobber_abi("C"),
        );
    }
    let kept = words.iter().take_while(|word| **word == BEFORE).count();
    assert_ne!(kept, 0, "more than it was given");
    (words.len() - kept) * size_of::<u128>()
}

/// With the functions of this crate around it, compiled without optimisation, a call stays within `STACK_BYTES`.
#[cfg(target_arch = "x86_64")]
#[test]
fn the_stack_of_a_call() {
    let most = calls().iter().map(|call| stack_used(call)).max().unwrap();
    // Three work rows of N places of 8 bytes are in it.
    assert!(3 * 8 * N < most && most <= STACK_BYTES, "{most} bytes");
}
