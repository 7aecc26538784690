//! Selected entries, and the reply of every call that fills result lists.

/// Status of an answer with entries.
pub const REDSTARTGILT_COMPLETE: u32 = 0;
/// Status of an answer without entries: the closed set passes the limit.
pub const REDSTARTGILT_CLOSURE_TOO_LARGE: u32 = 1;

/// The reply of a call that selects entries: a refusal, or the status and the counts. On a refusal all other fields
/// are 0.
#[repr(C)]
#[derive(Debug, Clone, Copy, PartialEq)]
#[allow(non_camel_case_types)]
pub struct redstartgilt_selected {
    /// The refusal's number, or 0.
    pub refusal: u32,
    /// [`REDSTARTGILT_COMPLETE`] or [`REDSTARTGILT_CLOSURE_TOO_LARGE`].
    pub status: u32,
    /// Distinct requested pairs.
    pub requested_pairs: usize,
    /// Pairs of the closed set, or limit + 1 where it passes the limit.
    pub closure_pairs: usize,
    /// Kept entries of the factor; with pivots each column counts one for its diagonal, stored or not.
    pub factor_pairs: usize,
    /// The limit that was applied.
    pub closure_limit: usize,
    /// `closure_pairs / max(factor_pairs, 1)`.
    pub closure_over_factor: f64,
}

extern "C" {
    /// Selected entries with a given limit.
    pub fn redstartgilt_selected_inverse_entries_with_limit(
        n: usize,
        starts: *const u32,
        starts_len: usize,
        rows: *const u32,
        rows_len: usize,
        values: *const f64,
        values_len: usize,
        dimension: usize,
        request_rows: *const u32,
        request_rows_len: usize,
        request_columns: *const u32,
        request_columns_len: usize,
        limit: usize,
        result_starts: *mut u32,
        result_starts_len: usize,
        result_rows: *mut u32,
        result_rows_len: usize,
        result_values: *mut f64,
        result_values_len: usize,
        scratch: *mut u32,
        scratch_len: usize,
    ) -> redstartgilt_selected;

    /// Selected entries with the default limit, 10 times the stored entries.
    pub fn redstartgilt_selected_inverse_entries(
        n: usize,
        starts: *const u32,
        starts_len: usize,
        rows: *const u32,
        rows_len: usize,
        values: *const f64,
        values_len: usize,
        dimension: usize,
        request_rows: *const u32,
        request_rows_len: usize,
        request_columns: *const u32,
        request_columns_len: usize,
        result_starts: *mut u32,
        result_starts_len: usize,
        result_rows: *mut u32,
        result_rows_len: usize,
        result_values: *mut f64,
        result_values_len: usize,
        scratch: *mut u32,
        scratch_len: usize,
    ) -> redstartgilt_selected;
}
