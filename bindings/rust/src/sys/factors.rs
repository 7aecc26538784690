//! A factor's check.

extern "C" {
    /// Whether a factor's lists are well formed and its kept entries finite.
    pub fn redstartgilt_check_factor(
        n: usize,
        starts: *const u32,
        starts_len: usize,
        rows: *const u32,
        rows_len: usize,
        values: *const f64,
        values_len: usize,
    ) -> u32;
}
