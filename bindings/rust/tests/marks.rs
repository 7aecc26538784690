//! Cells that were not computed are told from those of variance 0.0, in the factor's order and in original order.

use redstartgilt::lent::{self, EntryLists};
use redstartgilt::{selected_inverse_entries, CholeskyFactor, Error, Permutation, SparseSymmetricPattern};

fn permutation(orig_to_perm: &[usize]) -> Permutation {
    Permutation::from_orig_to_perm(orig_to_perm.to_vec()).unwrap()
}

/// A mark says that the entry is there, whatever its value.
#[test]
fn a_stored_zero_is_marked() {
    let stored = [0.0, -0.0, f64::NAN, f64::INFINITY, -1.5];
    let entries = EntryLists {
        starts: &[0, 1, 2, 2, 3, 3, 4, 5],
        rows: &[0, 1, 3, 5, 6],
        values: &stored,
    };
    let (mut values, mut marks) = ([7.0; 8], [7; 8]);
    lent::diag(entries, &mut values, &mut marks).unwrap();
    assert_eq!(marks, [1, 1, 0, 1, 0, 1, 1, 7]);
    let expected = [0.0, -0.0, 0.0, f64::NAN, 0.0, f64::INFINITY, -1.5, 7.0];
    for (cell, (value, expected)) in values.iter().zip(expected).enumerate() {
        assert_eq!(value.to_bits(), expected.to_bits(), "{cell}");
    }
}

/// An entry of the column other than the diagonal does not mark it.
#[test]
fn other_rows_are_not_the_diagonal() {
    let entries = EntryLists {
        starts: &[0, 1, 1],
        rows: &[1],
        values: &[3.0],
    };
    let (mut values, mut marks) = ([7.0; 2], [7; 2]);
    lent::diag(entries, &mut values, &mut marks).unwrap();
    assert_eq!((values, marks), ([0.0; 2], [0; 2]));
}

#[test]
fn either_output_too_short() {
    let entries = EntryLists {
        starts: &[0, 1, 1],
        rows: &[0],
        values: &[3.0],
    };
    let moved = |values: &mut [f64], marks: &mut [u8]| {
        lent::permute_factor_to_original_marked(&[1, 0], &[1.0, 2.0], &[1, 0], values, marks)
    };
    for (values, marks) in [(1, 2), (2, 1), (0, 0), (1, 9), (9, 1)] {
        let (mut values, mut marks) = (vec![7.0; values], vec![7; marks]);
        assert_eq!(lent::diag(entries, &mut values, &mut marks), Err(Error::TooShort));
        assert_eq!(moved(&mut values, &mut marks), Err(Error::TooShort));
        assert!(values.iter().all(|value| *value == 7.0) && marks.iter().all(|mark| *mark == 7));
    }
    let (mut values, mut marks) = ([7.0; 3], [7; 4]);
    assert_eq!(moved(&mut values, &mut marks), Ok(()));
    assert_eq!((values, marks), ([2.0, 1.0, 7.0], [0, 1, 7, 7]));
}

#[test]
fn marks_are_moved_as_they_are() {
    let input = [10.0, -0.0, f64::NAN];
    let marks = [200, 0, 255];
    let (mut values, mut moved) = ([7.0; 3], [7; 3]);
    lent::permute_factor_to_original_marked(&[2, 0, 1], &input, &marks, &mut values, &mut moved).unwrap();
    assert_eq!(moved, [255, 200, 0]);
    assert_eq!(
        values.map(f64::to_bits),
        [f64::NAN.to_bits(), 10.0f64.to_bits(), (-0.0f64).to_bits()]
    );
}

/// 1 goes before 4, and 4 before faults of the permutation, which go before 7.
#[test]
fn refusals_of_the_marked_permutation() {
    let refused = |orig_to_perm: &[u32], input: usize, marks: usize, expected: Error| {
        let (input, marks) = (vec![1.0; input], vec![1; marks]);
        for length in [0, 2] {
            let (mut values, mut moved) = (vec![7.0; length], vec![7; length]);
            let reply = lent::permute_factor_to_original_marked(orig_to_perm, &input, &marks, &mut values, &mut moved);
            assert_eq!(reply, Err(expected), "{orig_to_perm:?}");
            assert!(values.iter().all(|value| *value == 7.0) && moved.iter().all(|mark| *mark == 7));
        }
    };
    refused(&[0; 4_097], 1, 1, Error::TooLarge);
    refused(&[0], 4_097, 1, Error::TooLarge);
    refused(&[0], 1, 4_097, Error::TooLarge);
    refused(&[9, 9], 1, 2, Error::DimensionMismatch);
    refused(&[9, 9], 2, 1, Error::DimensionMismatch);
    refused(&[9, 9], 2, 3, Error::DimensionMismatch);
    refused(&[0, 2], 2, 2, Error::IndexTooLarge);
    refused(&[1, 1], 2, 2, Error::DuplicateEntry);
}

/// Of every set of requested diagonals: `diag` is what `get` gives cell by cell, and in original order what the
/// permutation leads to.
#[test]
fn the_diagonal_is_that_of_the_lookup() {
    let triplets = [
        (0, 0, 1.5),
        (3, 0, -0.5),
        (1, 1, 1.0),
        (2, 1, 0.25),
        (2, 2, 2.0),
        (4, 2, 1.0),
        (3, 3, 1.0),
        (4, 4, 0.5),
    ];
    let permutation = permutation(&[3, 0, 4, 2, 1]);
    let factor = CholeskyFactor::from_triplets(5, &triplets)
        .unwrap()
        .with_permutation(permutation.clone())
        .unwrap();
    for requests in 0..32 {
        let mut requested = SparseSymmetricPattern::new(5);
        for cell in (0..5).filter(|cell| requests >> cell & 1 == 1) {
            requested.insert(cell, cell).unwrap();
        }
        let inverse = selected_inverse_entries(&factor, &requested).unwrap().inverse.unwrap();
        let diagonal = inverse.diag();
        let looked_up = (0..5).map(|cell| inverse.get(cell, cell)).collect::<Vec<_>>();
        assert_eq!(diagonal, looked_up);
        assert_eq!(
            inverse.diag_or_zero(),
            looked_up.iter().map(|value| value.unwrap_or(0.0)).collect::<Vec<_>>()
        );
        let cells = factor.permute_factor_to_original_marked(&diagonal).unwrap();
        assert_eq!(permutation.permute_factor_to_original_marked(&diagonal).unwrap(), cells);
        for (cell, place) in permutation.orig_to_perm.iter().enumerate() {
            assert_eq!(cells[cell], diagonal[*place]);
        }
    }
}
