//! Variances over a result of whole numbers: bounds of a row whose weights are known within ranges, and the runs
//! of a track.

/// The reply of the bounds on a row's variance: a refusal, or the low and the high bound.
#[repr(C)]
#[derive(Debug, Clone, Copy, PartialEq, Eq)]
#[allow(non_camel_case_types)]
pub struct redstartgilt_variance_bounds {
    /// The refusal's number, or 0.
    pub refusal: u32,
    /// The low bound.
    pub low: i64,
    /// The high bound.
    pub high: i64,
}

extern "C" {
    /// Bounds on the variance of a row whose weights are known within ranges.
    pub fn redstartgilt_variance_bounds_whole(
        starts: *const u32,
        starts_len: usize,
        rows: *const u32,
        rows_len: usize,
        values: *const i64,
        values_len: usize,
        columns: *const u32,
        columns_len: usize,
        lows: *const i64,
        lows_len: usize,
        highs: *const i64,
        highs_len: usize,
    ) -> redstartgilt_variance_bounds;

    /// The variance of each run of consecutive cells along a track.
    pub fn redstartgilt_track_variances_whole(
        starts: *const u32,
        starts_len: usize,
        rows: *const u32,
        rows_len: usize,
        values: *const i64,
        values_len: usize,
        track: *const u32,
        track_len: usize,
        width: usize,
        output: *mut i64,
        output_len: usize,
    ) -> u32;
}
