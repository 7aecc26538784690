//! The chain to a pair of the closed set.

use super::redstartgilt_pairs;

extern "C" {
    /// The chain from a requested pair to a pair of the closed set.
    pub fn redstartgilt_dependency_chain(
        n: usize,
        starts: *const u32,
        starts_len: usize,
        rows: *const u32,
        rows_len: usize,
        values: *const f64,
        values_len: usize,
        dimension: usize,
        request_rows: *const u32,
        request_rows_len: usize,
        request_columns: *const u32,
        request_columns_len: usize,
        row: usize,
        column: usize,
        scratch: *mut u32,
        scratch_len: usize,
        chain_rows: *mut u32,
        chain_rows_len: usize,
        chain_columns: *mut u32,
        chain_columns_len: usize,
    ) -> redstartgilt_pairs;
}
