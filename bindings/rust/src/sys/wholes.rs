//! Selected entries in whole numbers: the calls, a factor's check, and the lookup in a result.

use super::redstartgilt_selected;

/// The reply of a lookup in a result of whole numbers: a refusal, or the value.
#[repr(C)]
#[derive(Debug, Clone, Copy, PartialEq, Eq)]
#[allow(non_camel_case_types)]
pub struct redstartgilt_whole_entry {
    /// The refusal's number, or 0.
    pub refusal: u32,
    /// The entry.
    pub value: i64,
}

extern "C" {
    /// Selected entries in whole numbers with a given limit.
    pub fn redstartgilt_selected_inverse_entries_whole_with_limit(
        n: usize,
        starts: *const u32,
        starts_len: usize,
        rows: *const u32,
        rows_len: usize,
        values: *const i64,
        values_len: usize,
        dimension: usize,
        request_rows: *const u32,
        request_rows_len: usize,
        request_columns: *const u32,
        request_columns_len: usize,
        limit: usize,
        result_starts: *mut u32,
        result_starts_len: usize,
        result_rows: *mut u32,
        result_rows_len: usize,
        result_values: *mut i64,
        result_values_len: usize,
        scratch: *mut u32,
        scratch_len: usize,
        work: *mut i64,
        work_len: usize,
    ) -> redstartgilt_selected;

    /// Selected entries in whole numbers with the default limit, 10 times the stored entries.
    pub fn redstartgilt_selected_inverse_entries_whole(
        n: usize,
        starts: *const u32,
        starts_len: usize,
        rows: *const u32,
        rows_len: usize,
        values: *const i64,
        values_len: usize,
        dimension: usize,
        request_rows: *const u32,
        request_rows_len: usize,
        request_columns: *const u32,
        request_columns_len: usize,
        result_starts: *mut u32,
        result_starts_len: usize,
        result_rows: *mut u32,
        result_rows_len: usize,
        result_values: *mut i64,
        result_values_len: usize,
        scratch: *mut u32,
        scratch_len: usize,
        work: *mut i64,
        work_len: usize,
    ) -> redstartgilt_selected;

    /// Whether the lists of a factor of whole numbers are well formed.
    pub fn redstartgilt_check_whole_factor(
        n: usize,
        starts: *const u32,
        starts_len: usize,
        rows: *const u32,
        rows_len: usize,
        values: *const i64,
        values_len: usize,
    ) -> u32;

    /// Lookup of one entry of a result of whole numbers.
    pub fn redstartgilt_get_whole(
        starts: *const u32,
        starts_len: usize,
        rows: *const u32,
        rows_len: usize,
        values: *const i64,
        values_len: usize,
        row: usize,
        column: usize,
    ) -> redstartgilt_whole_entry;
}
