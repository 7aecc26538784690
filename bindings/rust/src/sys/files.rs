//! Request files.

/// The reply of reading a request file: a refusal, or the dimension and the number of requests written. On a refusal
/// both are 0.
#[repr(C)]
#[derive(Debug, Clone, Copy, PartialEq)]
#[allow(non_camel_case_types)]
pub struct redstartgilt_requests {
    /// The refusal's number, or 0.
    pub refusal: u32,
    /// The size that the file has.
    pub dimension: usize,
    /// Requests written.
    pub requests: usize,
}

/// The reply of writing requests as a file: a refusal, or how many bytes the file has. On a refusal these are 0.
#[repr(C)]
#[derive(Debug, Clone, Copy, PartialEq)]
#[allow(non_camel_case_types)]
pub struct redstartgilt_bytes {
    /// The refusal's number, or 0.
    pub refusal: u32,
    /// Bytes written.
    pub bytes: usize,
}

extern "C" {
    /// Requests from a Matrix Market file.
    pub fn redstartgilt_read_requests(
        text: *const u8,
        text_len: usize,
        rows: *mut u32,
        rows_len: usize,
        columns: *mut u32,
        columns_len: usize,
    ) -> redstartgilt_requests;

    /// Requests as a Matrix Market file.
    pub fn redstartgilt_write_requests(
        dimension: usize,
        rows: *const u32,
        rows_len: usize,
        columns: *const u32,
        columns_len: usize,
        output: *mut u8,
        output_len: usize,
        scratch: *mut u32,
        scratch_len: usize,
    ) -> redstartgilt_bytes;
}
