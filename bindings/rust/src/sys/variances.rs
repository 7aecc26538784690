//! The diagonal in original order, and the variances of an operator's rows.

use super::redstartgilt_selected;

extern "C" {
    /// The diagonal in original order, with a given limit.
    pub fn redstartgilt_selected_inverse_diag_with_limit(
        n: usize,
        starts: *const u32,
        starts_len: usize,
        rows: *const u32,
        rows_len: usize,
        values: *const f64,
        values_len: usize,
        orig_to_perm: *const u32,
        orig_to_perm_len: usize,
        limit: usize,
        result_starts: *mut u32,
        result_starts_len: usize,
        result_rows: *mut u32,
        result_rows_len: usize,
        result_values: *mut f64,
        result_values_len: usize,
        scratch: *mut u32,
        scratch_len: usize,
        output: *mut f64,
        output_len: usize,
    ) -> redstartgilt_selected;

    /// The diagonal in original order.
    pub fn redstartgilt_selected_inverse_diag_with_diagnostics(
        n: usize,
        starts: *const u32,
        starts_len: usize,
        rows: *const u32,
        rows_len: usize,
        values: *const f64,
        values_len: usize,
        orig_to_perm: *const u32,
        orig_to_perm_len: usize,
        result_starts: *mut u32,
        result_starts_len: usize,
        result_rows: *mut u32,
        result_rows_len: usize,
        result_values: *mut f64,
        result_values_len: usize,
        scratch: *mut u32,
        scratch_len: usize,
        output: *mut f64,
        output_len: usize,
    ) -> redstartgilt_selected;

    /// Operator variances with a given limit.
    pub fn redstartgilt_selected_inverse_transformed_diag_with_limit(
        n: usize,
        starts: *const u32,
        starts_len: usize,
        rows: *const u32,
        rows_len: usize,
        values: *const f64,
        values_len: usize,
        ncols: usize,
        row_starts: *const u32,
        row_starts_len: usize,
        columns: *const u32,
        columns_len: usize,
        weights: *const f64,
        weights_len: usize,
        limit: usize,
        result_starts: *mut u32,
        result_starts_len: usize,
        result_rows: *mut u32,
        result_rows_len: usize,
        result_values: *mut f64,
        result_values_len: usize,
        scratch: *mut u32,
        scratch_len: usize,
        output: *mut f64,
        output_len: usize,
    ) -> redstartgilt_selected;

    /// Operator variances.
    pub fn redstartgilt_selected_inverse_transformed_diag(
        n: usize,
        starts: *const u32,
        starts_len: usize,
        rows: *const u32,
        rows_len: usize,
        values: *const f64,
        values_len: usize,
        ncols: usize,
        row_starts: *const u32,
        row_starts_len: usize,
        columns: *const u32,
        columns_len: usize,
        weights: *const f64,
        weights_len: usize,
        result_starts: *mut u32,
        result_starts_len: usize,
        result_rows: *mut u32,
        result_rows_len: usize,
        result_values: *mut f64,
        result_values_len: usize,
        scratch: *mut u32,
        scratch_len: usize,
        output: *mut f64,
        output_len: usize,
    ) -> redstartgilt_selected;
}
