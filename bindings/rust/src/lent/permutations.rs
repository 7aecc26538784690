//! Permutations, and lists put in the original order.

use crate::Error;

/// Accepts a permutation with its inverse.
///
/// Refuses with 1, with 12 for unequal lengths, then element by element with 10, 11, 12.
pub fn validate(orig_to_perm: &[u32], perm_to_orig: &[u32]) -> Result<(), Error> {
    Error::check(lend!(redstartgilt_validate: [orig_to_perm] [perm_to_orig]))
}

/// Writes the inverse of a permutation.
///
/// Refuses with 1, then element by element with 10, 11, then with 7.
pub fn from_orig_to_perm(orig_to_perm: &[u32], perm_to_orig: &mut [u32]) -> Result<(), Error> {
    Error::check(lend!(redstartgilt_from_orig_to_perm: [orig_to_perm] {perm_to_orig}))
}

/// Writes `input[orig_to_perm[i]]` to place i of `output`.
///
/// Refuses with 1, 4, then element by element with 10, 11, then with 7.
pub fn permute_factor_to_original(orig_to_perm: &[u32], input: &[f64], output: &mut [f64]) -> Result<(), Error> {
    Error::check(lend!(redstartgilt_permute_factor_to_original: [orig_to_perm] [input] {output}))
}

/// Writes `input[orig_to_perm[i]]` to place i of `output` and `marks[orig_to_perm[i]]` to place i of `output_marks`. Marks
/// are bytes of any value.
///
/// Refuses with 1, 4, then element by element with 10, 11, then with 7 for either output.
pub fn permute_factor_to_original_marked(
    orig_to_perm: &[u32],
    input: &[f64],
    marks: &[u8],
    output: &mut [f64],
    output_marks: &mut [u8],
) -> Result<(), Error> {
    let refusal = lend!(redstartgilt_permute_factor_to_original_marked:
        [orig_to_perm] [input] [marks] {output} {output_marks});
    Error::check(refusal)
}
