//! Matrix Market files of request lists, from document 02's text: the driver's own reader, by lines and fields, and its own
//! writer.

use crate::refusals::{MOST_COLUMNS, MOST_ENTRIES};
use std::collections::BTreeSet;
use std::iter::once;

pub const HEADER: &[u8] = b"%%MatrixMarket matrix coordinate pattern symmetric";

/// A file's requests, in file order, counted from 0; of a file without entries every diagonal cell.
pub struct Requests {
    pub dimension: usize,
    pub rows: Vec<u32>,
    pub columns: Vec<u32>,
}

/// The requests of a file, or 15, 16 or 17.
pub fn read(text: &[u8]) -> Result<Requests, u32> {
    let mut lines = text.split(|&byte| byte == b'\n');
    if lines.next() != Some(HEADER) {
        return Err(15);
    }
    // what follows the last LF is a line too, and skipped where it is empty
    let filled = lines.filter(|line| !line.iter().all(is_blank));
    let mut lines = filled.skip_while(|line| line.starts_with(b"%"));
    let [size, other_size, count] = lines.next().and_then(numbers).ok_or(16u32)?;
    let mut entries: Vec<[u64; 2]> = lines.map(numbers).collect::<Option<_>>().ok_or(16u32)?;
    if size != other_size || size > MOST_COLUMNS as u64 {
        return Err(16);
    }
    if count > MOST_ENTRIES as u64 || count != entries.len() as u64 {
        return Err(16);
    }
    if entries.iter().any(|&[row, column]| column == 0 || row < column || row > size) {
        return Err(17);
    }
    if entries.is_empty() {
        entries = (1..=size).map(|cell| [cell, cell]).collect();
    }
    let places = |at: usize| entries.iter().map(|entry| entry[at] as u32 - 1).collect();
    Ok(Requests { dimension: size as usize, rows: places(0), columns: places(1) })
}

/// The file of requests that are not refused: each pair once, by column then row.
pub fn written(dimension: usize, rows: &[u32], columns: &[u32]) -> Vec<u8> {
    let pairs: BTreeSet<(u32, u32)> = columns.iter().copied().zip(rows.iter().copied()).collect();
    let size = format!("{dimension} {dimension} {}", pairs.len());
    let lines = pairs.iter().map(|(column, row)| format!("{} {}", row + 1, column + 1));
    let lines = once(size).chain(lines).map(String::into_bytes);
    once(HEADER.to_vec()).chain(lines).flat_map(|line| [line, b"\n".to_vec()]).flatten().collect()
}

fn is_blank(byte: &u8) -> bool {
    matches!(byte, b' ' | b'\t')
}

/// The numbers of a line that has so many and nothing else.
fn numbers<const N: usize>(line: &[u8]) -> Option<[u64; N]> {
    let mut fields = line.split(is_blank).filter(|field| !field.is_empty());
    let mut numbers = [0; N];
    for place in &mut numbers {
        *place = number(fields.next()?)?;
    }
    fields.next().is_none().then_some(numbers)
}

/// The value of a field of digits; 2^64 - 1 stands for all from there on, which is above every bound.
fn number(field: &[u8]) -> Option<u64> {
    field.iter().try_fold(0u64, |value, byte| {
        byte.is_ascii_digit().then(|| value.saturating_mul(10).saturating_add((byte - b'0') as u64))
    })
}
