//! Request files.

use crate::Error;

/// What a request file holds beside its pairs.
#[derive(Debug, Clone, Copy, PartialEq, Eq)]
pub struct FileRequests {
    /// The dimension.
    pub dimension: usize,
    /// The number of requests, repeats counted.
    pub requests: usize,
}

/// Writes the requests of a Matrix Market file, counted from 0, in file order with repeats kept. A file without entries
/// means every diagonal cell, ascending.
///
/// What the file must be is said at [`REQUEST_FILE_HEADER`](crate::REQUEST_FILE_HEADER). Refuses with 15, 16, 17, each
/// for the whole file before the next, then with 7 for a list shorter than the requests;
/// [`request_places`](super::request_places) suffices. [`RequestFileFault::find`](crate::RequestFileFault::find) tells
/// the line that a file is refused for.
///
/// ```
/// use redstartgilt::lent;
///
/// let text = b"%%MatrixMarket matrix coordinate pattern symmetric\n3 3 3\n3 1\n2 2\n3 1\n";
/// let (mut rows, mut columns) = ([7; 4], [7; 4]);
/// let file = lent::read_requests(text, &mut rows, &mut columns)?;
/// assert_eq!((file.dimension, file.requests), (3, 3));
/// assert_eq!((rows, columns), ([2, 1, 2, 7], [0, 1, 0, 7]));
/// # Ok::<(), redstartgilt::Error>(())
/// ```
pub fn read_requests(text: &[u8], rows: &mut [u32], columns: &mut [u32]) -> Result<FileRequests, Error> {
    let reply = lend!(redstartgilt_read_requests: [text] {rows} {columns});
    Error::check(reply.refusal)?;
    Ok(FileRequests {
        dimension: reply.dimension,
        requests: reply.requests,
    })
}

/// Writes requests as a Matrix Market file to the front of the output, and returns how many bytes it has: each pair
/// once, by column then row, counted from 1, without comments. Requests that are one set of pairs of one dimension give
/// equal bytes, in any order and with any repeats.
///
/// Refuses with 1, with 4 for lists of unequal length, with 5 for an index outside or a row less than its column, which
/// are not exchanged, with 24 for no requests of a dimension above 0, then with 7 for a scratch below
/// [`mark_words`](super::mark_words) and with 7 for an output shorter than the file, which is left as it was;
/// [`request_file_bytes`](super::request_file_bytes) suffices. Past the other refusals the scratch's words end 0.
///
/// ```
/// use redstartgilt::lent;
///
/// let (mut output, mut scratch) = ([0; 96], [0; 1]);
/// let bytes = lent::write_requests(2, &[1, 0, 1], &[0, 0, 0], &mut output, &mut scratch)?;
/// let file = "%%MatrixMarket matrix coordinate pattern symmetric\n2 2 2\n1 1\n2 1\n";
/// assert_eq!(&output[..bytes], file.as_bytes());
/// # Ok::<(), redstartgilt::Error>(())
/// ```
pub fn write_requests(
    dimension: usize,
    rows: &[u32],
    columns: &[u32],
    output: &mut [u8],
    scratch: &mut [u32],
) -> Result<usize, Error> {
    let reply = lend!(redstartgilt_write_requests: (dimension) [rows] [columns] {output} {scratch});
    Error::check(reply.refusal)?;
    Ok(reply.bytes)
}
