//! `benchmark-files`, its first table: the time of reading a file beside that of a plain Rust reader and of C's `fscanf`.
//!
//! A file has as many entries as there may be, once by column then row and once in random order. Each reader fills the
//! same lists, allocated before, and must give the same requests. Timed is processor time, in turn, the best of the runs
//! after one that is not timed. The library and the Rust reader are given the bytes in memory; `fscanf` reads them from a
//! file, which the system holds in memory, as the readers in C that Matrix Market offers do. Tables are in Markdown.

use crate::benchmark::{machine, processor_ms};
use crate::call::Call;
use crate::files::plain_file;
use crate::function::Function;
use crate::list::List;
use crate::random::Random;
use crate::refusals::{MOST_COLUMNS, MOST_ENTRIES};
use crate::subjects::PairLists;
use crate::writing::rows_of_written;
use std::ffi::{c_char, c_int, CString};
use std::hint::black_box;
use std::io;
use std::path::PathBuf;

/// What the library may take of the Rust reader's time, and of `fscanf`'s.
const RUST_TARGET: f64 = 0.5;
const C_TARGET: f64 = 0.1;

#[repr(C)]
struct CFile {
    _private: [u8; 0],
}

extern "C" {
    fn fopen(path: *const c_char, mode: *const c_char) -> *mut CFile;
    fn fgets(line: *mut c_char, size: c_int, file: *mut CFile) -> *mut c_char;
    fn fscanf(file: *mut CFile, format: *const c_char, ...) -> c_int;
    fn fclose(file: *mut CFile) -> c_int;
}

/// A file on disk, removed afterwards.
struct OnDisk {
    path: PathBuf,
}

impl OnDisk {
    fn new(text: &[u8]) -> io::Result<Self> {
        let path = std::env::temp_dir().join(format!("redstartgilt-{}.mtx", std::process::id()));
        std::fs::write(&path, text)?;
        Ok(OnDisk { path })
    }

    fn name(&self) -> CString {
        CString::new(self.path.as_os_str().as_encoded_bytes()).expect("no zero byte")
    }
}

impl Drop for OnDisk {
    fn drop(&mut self) {
        let _ = std::fs::remove_file(&self.path);
    }
}

/// The plain Rust reader: the words after header and comments, each parsed. The file's dimension and number of entries.
fn read_words(text: &[u8], rows: &mut [u32], columns: &mut [u32]) -> Option<(usize, usize)> {
    let (header, mut rest) = std::str::from_utf8(text).ok()?.split_once('\n')?;
    if header.as_bytes() != crate::matrix_market::HEADER {
        return None;
    }
    while rest.starts_with('%') {
        rest = rest.split_once('\n')?.1;
    }
    let mut words = rest.split_ascii_whitespace();
    let dimension: u32 = words.next()?.parse().ok()?;
    let other: u32 = words.next()?.parse().ok()?;
    let count: usize = words.next()?.parse().ok()?;
    if dimension != other || rows.len() < count || columns.len() < count {
        return None;
    }
    for (row, column) in rows.iter_mut().zip(columns).take(count) {
        let (r, c): (u32, u32) = (words.next()?.parse().ok()?, words.next()?.parse().ok()?);
        if c < 1 || r < c || dimension < r {
            return None;
        }
        (*row, *column) = (r - 1, c - 1);
    }
    words.next().is_none().then_some((dimension as usize, count))
}

/// The loop of Matrix Market's own reader in C: a line for the header, then `fscanf` for each line.
fn read_by_fscanf(name: &CString, rows: &mut [u32], columns: &mut [u32]) -> Option<(usize, usize)> {
    let (mut dimension, mut other, mut count): (c_int, c_int, c_int) = (0, 0, 0);
    let mut line: [c_char; 1025] = [0; 1025];
    unsafe {
        let file = fopen(name.as_ptr(), c"r".as_ptr());
        if file.is_null() || fgets(line.as_mut_ptr(), line.len() as c_int, file).is_null() {
            return None;
        }
        let read = fscanf(file, c"%d %d %d".as_ptr(), &mut dimension, &mut other, &mut count);
        let mut complete = read == 3 && count as usize <= rows.len().min(columns.len());
        if complete {
            for (row, column) in rows.iter_mut().zip(columns).take(count as usize) {
                complete &= fscanf(file, c"%d %d\n".as_ptr(), row as *mut u32, column as *mut u32) == 2;
                *row = row.wrapping_sub(1);
                *column = column.wrapping_sub(1);
            }
        }
        fclose(file);
        complete.then_some((dimension as usize, count as usize))
    }
}

pub fn time_of<T>(work: impl FnOnce() -> T) -> f64 {
    let start = processor_ms();
    black_box(work());
    processor_ms() - start
}

/// As many pairs as there may be, each once, in random order.
pub fn some_pairs() -> Vec<[usize; 2]> {
    let mut pairs: Vec<[usize; 2]> = (1..=MOST_COLUMNS).flat_map(|r| (1..=r).map(move |c| [r, c])).collect();
    Random::new(1).shuffle(&mut pairs);
    pairs.truncate(MOST_ENTRIES);
    pairs
}

struct Row {
    bytes: usize,
    ours: f64,
    rust: f64,
    c: f64,
}

/// Compares what the readers make of a file, then times them.
fn row(pairs: &[[usize; 2]], runs: usize) -> io::Result<Row> {
    let size = [MOST_COLUMNS, MOST_COLUMNS, pairs.len()];
    let text = plain_file(std::iter::once(&size[..]).chain(pairs.iter().map(|pair| &pair[..])));
    let (bytes, disk) = (text.len(), OnDisk::new(&text)?);
    let (name, read) = (disk.name(), Some((MOST_COLUMNS, pairs.len())));
    let list = || List::made(pairs.len(), |_| 0u32);
    let mut call = Call {
        function: Function::ReadRequests,
        text: List::new(&text),
        pairs: PairLists { rows: list(), columns: list() },
        ..Call::default()
    };
    let listed = |at: usize| pairs.iter().map(move |pair| pair[at] as u32 - 1);
    let same =
        |rows: &[u32], columns: &[u32]| rows.iter().copied().eq(listed(0)) && columns.iter().copied().eq(listed(1));

    let reply = call.make();
    let replied = reply.refusal == 0 && (reply.dimension, reply.requests) == (MOST_COLUMNS, pairs.len());
    if !replied || !same(&call.pairs.rows, &call.pairs.columns) {
        return Err(io::Error::other("the library reads another list"));
    }
    let (mut rows, mut columns) = (list(), list());
    if read_words(&text, &mut rows, &mut columns) != read || !same(&rows, &columns) {
        return Err(io::Error::other("the Rust reader reads another list"));
    }
    (rows, columns) = (list(), list());
    if read_by_fscanf(&name, &mut rows, &mut columns) != read || !same(&rows, &columns) {
        return Err(io::Error::other("fscanf reads another list"));
    }
    let (mut ours, mut rust, mut c) = (f64::INFINITY, f64::INFINITY, f64::INFINITY);
    for _ in 0..runs {
        ours = ours.min(time_of(|| call.make()));
        rust = rust.min(time_of(|| read_words(black_box(&text), &mut rows, &mut columns)));
        c = c.min(time_of(|| read_by_fscanf(&name, &mut rows, &mut columns)));
    }
    Ok(Row { bytes, ours, rust, c })
}

pub fn benchmark_files(runs: usize) -> io::Result<()> {
    println!("{}; processor time in ms", machine());
    rows_of_files(runs)?;
    rows_of_written(runs)
}

/// The table, with its title.
pub fn rows_of_files(runs: usize) -> io::Result<()> {
    println!("\nReading a file, best of {runs} runs\n");
    println!("| entries | bytes | ours | Rust | fscanf | ours / Rust | target | | ours / fscanf | target | |");
    println!("|---|---|---|---|---|---|---|---|---|---|---|");
    let shuffled = some_pairs();
    let mut ordered = shuffled.clone();
    ordered.sort_by_key(|&[row, column]| (column, row));
    for (order, pairs) in [("by column then row", ordered), ("in random order", shuffled)] {
        let row = row(&pairs, runs)?;
        let met = |ratio: f64, target: f64| {
            format!("{ratio:.3} | {target} | {}", if ratio <= target { "met" } else { "missed" })
        };
        println!(
            "| {} {order} | {} | {:.3} | {:.3} | {:.3} | {} | {} |",
            pairs.len(),
            row.bytes,
            row.ours,
            row.rust,
            row.c,
            met(row.ours / row.rust, RUST_TARGET),
            met(row.ours / row.c, C_TARGET)
        );
    }
    Ok(())
}
