//! A result: lookups, its check, its diagonal list.

/// The reply of a lookup: a refusal, or the value.
#[repr(C)]
#[derive(Debug, Clone, Copy, PartialEq)]
#[allow(non_camel_case_types)]
pub struct redstartgilt_entry {
    /// The refusal's number, or 0.
    pub refusal: u32,
    /// The entry.
    pub value: f64,
}

/// The reply of a lookup that counts: a refusal, or the value; and how many places of the column its search looked at.
#[repr(C)]
#[derive(Debug, Clone, Copy, PartialEq)]
#[allow(non_camel_case_types)]
pub struct redstartgilt_counted_entry {
    /// The refusal's number, or 0.
    pub refusal: u32,
    /// The entry.
    pub value: f64,
    /// Places looked at, also where the pair is absent.
    pub looks: usize,
}

extern "C" {
    /// Lookup of one entry.
    pub fn redstartgilt_get(
        starts: *const u32,
        starts_len: usize,
        rows: *const u32,
        rows_len: usize,
        values: *const f64,
        values_len: usize,
        row: usize,
        column: usize,
    ) -> redstartgilt_entry;

    /// Lookup of one entry, with the number of places that its search looked at.
    pub fn redstartgilt_get_counted(
        starts: *const u32,
        starts_len: usize,
        rows: *const u32,
        rows_len: usize,
        values: *const f64,
        values_len: usize,
        row: usize,
        column: usize,
    ) -> redstartgilt_counted_entry;

    /// Whether a result is well formed.
    pub fn redstartgilt_check_result(
        starts: *const u32,
        starts_len: usize,
        rows: *const u32,
        rows_len: usize,
        values: *const f64,
        values_len: usize,
    ) -> u32;

    /// Lookup of one entry of a well-formed result.
    pub fn redstartgilt_get_well_formed(
        starts: *const u32,
        starts_len: usize,
        rows: *const u32,
        rows_len: usize,
        values: *const f64,
        values_len: usize,
        row: usize,
        column: usize,
    ) -> redstartgilt_entry;

    /// The diagonal list, with marks.
    pub fn redstartgilt_diag(
        starts: *const u32,
        starts_len: usize,
        rows: *const u32,
        rows_len: usize,
        values: *const f64,
        values_len: usize,
        output: *mut f64,
        output_len: usize,
        marks: *mut u8,
        marks_len: usize,
    ) -> u32;
}
