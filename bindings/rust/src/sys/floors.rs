//! Variances: a floor under them, and the least of them.

/// The reply of the floor: a refusal, or the floor and how many values were raised to it.
#[repr(C)]
#[derive(Debug, Clone, Copy, PartialEq)]
#[allow(non_camel_case_types)]
pub struct redstartgilt_floored {
    /// The refusal's number, or 0.
    pub refusal: u32,
    /// The floor.
    pub floor: f64,
    /// Values that were not above the floor.
    pub floor_hits: usize,
}

/// How many values are negative, and the least of them all.
#[repr(C)]
#[derive(Debug, Clone, Copy, PartialEq)]
#[allow(non_camel_case_types)]
pub struct redstartgilt_least {
    /// Values below 0.
    pub num_negative: usize,
    /// The least value; 0.0 for no values.
    pub min_value: f64,
}

extern "C" {
    /// The floor 0.0.
    pub fn redstartgilt_stabilize_variances_zero(
        values: *const f64,
        values_len: usize,
        output: *mut f64,
        output_len: usize,
    ) -> redstartgilt_floored;

    /// The floor `max(|mean of the positive values|, 1) * scale`.
    pub fn redstartgilt_stabilize_variances_positive_mean(
        values: *const f64,
        values_len: usize,
        scale: f64,
        output: *mut f64,
        output_len: usize,
    ) -> redstartgilt_floored;

    /// Count and least.
    pub fn redstartgilt_count_and_least(values: *const f64, values_len: usize) -> redstartgilt_least;
}
