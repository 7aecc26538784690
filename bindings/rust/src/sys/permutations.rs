//! Permutations, and lists put in the original order.

extern "C" {
    /// Whether two lists are permutations and each other's inverses.
    pub fn redstartgilt_validate(
        orig_to_perm: *const u32,
        orig_to_perm_len: usize,
        perm_to_orig: *const u32,
        perm_to_orig_len: usize,
    ) -> u32;

    /// The inverse of a permutation.
    pub fn redstartgilt_from_orig_to_perm(
        orig_to_perm: *const u32,
        orig_to_perm_len: usize,
        perm_to_orig: *mut u32,
        perm_to_orig_len: usize,
    ) -> u32;

    /// Values in factor order put in original order.
    pub fn redstartgilt_permute_factor_to_original(
        orig_to_perm: *const u32,
        orig_to_perm_len: usize,
        input: *const f64,
        input_len: usize,
        output: *mut f64,
        output_len: usize,
    ) -> u32;

    /// Values with their marks, in factor order, put in original order.
    pub fn redstartgilt_permute_factor_to_original_marked(
        orig_to_perm: *const u32,
        orig_to_perm_len: usize,
        input: *const f64,
        input_len: usize,
        marks: *const u8,
        marks_len: usize,
        output: *mut f64,
        output_len: usize,
        output_marks: *mut u8,
        output_marks_len: usize,
    ) -> u32;
}
