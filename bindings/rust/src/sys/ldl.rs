//! Selected entries of a factor with pivots.

use super::redstartgilt_selected;

extern "C" {
    /// Selected entries of a factor with pivots, with a given limit.
    pub fn redstartgilt_selected_inverse_entries_ldl_with_limit(
        n: usize,
        starts: *const u32,
        starts_len: usize,
        rows: *const u32,
        rows_len: usize,
        values: *const f64,
        values_len: usize,
        pivots: *const f64,
        pivots_len: usize,
        dimension: usize,
        request_rows: *const u32,
        request_rows_len: usize,
        request_columns: *const u32,
        request_columns_len: usize,
        limit: usize,
        result_starts: *mut u32,
        result_starts_len: usize,
        result_rows: *mut u32,
        result_rows_len: usize,
        result_values: *mut f64,
        result_values_len: usize,
        scratch: *mut u32,
        scratch_len: usize,
    ) -> redstartgilt_selected;

    /// Selected entries of a factor with pivots, with the default limit, 10 times the stored entries.
    pub fn redstartgilt_selected_inverse_entries_ldl(
        n: usize,
        starts: *const u32,
        starts_len: usize,
        rows: *const u32,
        rows_len: usize,
        values: *const f64,
        values_len: usize,
        pivots: *const f64,
        pivots_len: usize,
        dimension: usize,
        request_rows: *const u32,
        request_rows_len: usize,
        request_columns: *const u32,
        request_columns_len: usize,
        result_starts: *mut u32,
        result_starts_len: usize,
        result_rows: *mut u32,
        result_rows_len: usize,
        result_values: *mut f64,
        result_values_len: usize,
        scratch: *mut u32,
        scratch_len: usize,
    ) -> redstartgilt_selected;
}
