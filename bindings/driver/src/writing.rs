//! `benchmark-files`, its second table: the time of writing requests as a file beside that of a plain Rust writer.
//!
//! As many requests as there may be, of the greatest dimension: each pair once, by column then row and in random order, and
//! each four times. The Rust writer has `sort`, `dedup` and `write!`. Both are given the lists, and write into memory that is
//! allocated before; they must give the same bytes. Timed is processor time, in turn, the best of the runs after one that is
//! not timed.

use crate::call::Call;
use crate::function::Function;
use crate::list::List;
use crate::matrix_market::HEADER;
use crate::random::Random;
use crate::reading::{some_pairs, time_of};
use crate::refusals::{MOST_COLUMNS, MOST_ENTRIES};
use crate::rules::mark_words;
use crate::written_lists::{lists_of, PairList};
use std::hint::black_box;
use std::io::{self, Write};

/// What the library may take of the Rust writer's time.
const TARGET: f64 = 0.3;

/// The plain Rust writer.
fn write_sorted(dimension: usize, rows: &[u32], columns: &[u32], text: &mut Vec<u8>) -> io::Result<()> {
    let mut pairs: Vec<(u32, u32)> = columns.iter().copied().zip(rows.iter().copied()).collect();
    pairs.sort();
    pairs.dedup();
    text.clear();
    text.write_all(HEADER)?;
    write!(text, "\n{dimension} {dimension} {}\n", pairs.len())?;
    for (column, row) in pairs {
        writeln!(text, "{} {}", row + 1, column + 1)?;
    }
    Ok(())
}

/// Compares what the writers make of requests, then times them: the bytes, and the times of the library and of the Rust.
fn row(pairs: &[(u32, u32)], runs: usize) -> io::Result<(usize, f64, f64)> {
    // 10 bytes a pair, and 75 before them
    let most = 75 + 10 * pairs.len();
    let mut call = Call {
        function: Function::WriteRequests,
        requests: lists_of(MOST_COLUMNS, pairs),
        file: List::made(most, |_| 0),
        scratch: List::made(mark_words(MOST_COLUMNS), |_| 7777),
        ..Call::default()
    };
    let requests = call.requests.clone();
    let mut text = Vec::with_capacity(most);
    let reply = call.make();
    write_sorted(MOST_COLUMNS, &requests.rows, &requests.columns, &mut text)?;
    if reply.refusal != 0 || call.file[..reply.bytes] != text {
        return Err(io::Error::other("the library writes another file"));
    }
    let (mut ours, mut rust) = (f64::INFINITY, f64::INFINITY);
    for _ in 0..runs {
        ours = ours.min(time_of(|| call.make()));
        rust = rust.min(time_of(|| {
            write_sorted(MOST_COLUMNS, black_box(&requests.rows), black_box(&requests.columns), &mut text)
        }));
    }
    Ok((reply.bytes, ours, rust))
}

/// The table, with its title.
pub fn rows_of_written(runs: usize) -> io::Result<()> {
    println!("\nWriting a file, best of {runs} runs\n");
    println!("| requests | bytes | ours | Rust | ours / Rust | target | |");
    println!("|---|---|---|---|---|---|---|");
    let shuffled: PairList = some_pairs().iter().map(|&[row, column]| (row as u32 - 1, column as u32 - 1)).collect();
    let mut ordered = shuffled.clone();
    ordered.sort_by_key(|&(row, column)| (column, row));
    let mut repeated = shuffled[..MOST_ENTRIES / 4].repeat(4);
    Random::new(2).shuffle(&mut repeated);
    for (order, pairs) in
        [("by column then row", ordered), ("in random order", shuffled), ("in random order, each four times", repeated)]
    {
        let (bytes, ours, rust) = row(&pairs, runs)?;
        let ratio = ours / rust;
        println!(
            "| {} {order} | {bytes} | {ours:.3} | {rust:.3} | {ratio:.3} | {TARGET} | {} |",
            pairs.len(),
            if ratio <= TARGET { "met" } else { "missed" }
        );
    }
    Ok(())
}
