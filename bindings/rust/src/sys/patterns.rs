//! Pattern lists: the pairs of a factor and of an operator.

/// The reply of a pattern list or of a chain: a refusal, or the number of pairs written. On a refusal that is 0.
#[repr(C)]
#[derive(Debug, Clone, Copy, PartialEq)]
#[allow(non_camel_case_types)]
pub struct redstartgilt_pairs {
    /// The refusal's number, or 0.
    pub refusal: u32,
    /// Pairs written.
    pub pairs: usize,
}

extern "C" {
    /// The pairs of a factor's kept entries.
    pub fn redstartgilt_from_cholesky_factor(
        n: usize,
        starts: *const u32,
        starts_len: usize,
        rows: *const u32,
        rows_len: usize,
        values: *const f64,
        values_len: usize,
        scratch: *mut u32,
        scratch_len: usize,
        pair_rows: *mut u32,
        pair_rows_len: usize,
        pair_columns: *mut u32,
        pair_columns_len: usize,
    ) -> redstartgilt_pairs;

    /// The column pairs of an operator's rows.
    pub fn redstartgilt_from_transformed_operator(
        ncols: usize,
        row_starts: *const u32,
        row_starts_len: usize,
        columns: *const u32,
        columns_len: usize,
        weights: *const f64,
        weights_len: usize,
        scratch: *mut u32,
        scratch_len: usize,
        pair_rows: *mut u32,
        pair_rows_len: usize,
        pair_columns: *mut u32,
        pair_columns_len: usize,
    ) -> redstartgilt_pairs;
}
