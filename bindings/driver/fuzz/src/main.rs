//! What libFuzzer calls with each file that it makes: the library reads it, as it is and behind a header, into lists of
//! several lengths; reply, lists and guard words must be what the driver's own reader gives. What an accepted file asks for is
//! then written with bytes and scratch of several lengths, which must be what the driver's own writer gives, and read back.

#![no_main]
// the driver's modules have more than is used here
#![allow(dead_code)]

#[path = "../../src/call.rs"]
mod call;
#[path = "../../src/chains.rs"]
mod chains;
#[path = "../../src/expected.rs"]
mod expected;
#[path = "../../src/function.rs"]
mod function;
#[path = "../../src/ldl.rs"]
mod ldl;
#[path = "../../src/list.rs"]
mod list;
#[path = "../../src/matrix_market.rs"]
mod matrix_market;
#[path = "../../src/ranges.rs"]
mod ranges;
#[path = "../../src/refusals.rs"]
mod refusals;
#[path = "../../src/reply.rs"]
mod reply;
#[path = "../../src/rules.rs"]
mod rules;
#[path = "../../src/subjects.rs"]
mod subjects;
#[path = "../../src/tracks.rs"]
mod tracks;
#[path = "../../src/whole.rs"]
mod whole;

use call::Call;
use function::Function;
use list::List;
use matrix_market::{Requests, HEADER};
use subjects::{PairLists, RequestLists};

#[no_mangle]
pub extern "C" fn LLVMFuzzerTestOneInput(data: *const u8, size: usize) -> i32 {
    let text = if size == 0 { &[] } else { unsafe { std::slice::from_raw_parts(data, size) } };
    compare_file(text);
    compare_file(&[HEADER, b"\n", text].concat());
    0
}

fn compare_file(text: &[u8]) {
    let count = matrix_market::read(text).map_or(1, |requests| requests.rows.len());
    compare_call(text, count, count + 2);
    compare_call(text, count + 2, count);
    if count > 0 {
        compare_call(text, count - 1, count);
        compare_call(text, count, count - 1);
    }
    if let Ok(requests) = matrix_market::read(text) {
        compare_round_trip(requests);
    }
}

/// The requests of a file are written and read back: each pair once, by column then row.
fn compare_round_trip(requests: Requests) {
    let Requests { dimension, rows, columns } = requests;
    let bytes = matrix_market::written(dimension, &rows, &columns).len();
    let words = rules::mark_words(dimension);
    compare_written(dimension, &rows, &columns, bytes - 1, words);
    if words > 0 {
        compare_written(dimension, &rows, &columns, bytes, words - 1);
        compare_written(dimension, &rows, &columns, bytes - 1, words - 1);
    }
    let file = compare_written(dimension, &rows, &columns, bytes + 2, words + 1);
    let mut pairs: Vec<(u32, u32)> = columns.into_iter().zip(rows).collect();
    pairs.sort();
    pairs.dedup();
    let read = compare_call(&file[..bytes], pairs.len(), pairs.len() + 1);
    let again: Vec<(u32, u32)> = read.columns.iter().copied().zip(read.rows.iter().copied()).collect();
    assert!(again == pairs, "another list is read back");
}

/// Requests written with so many bytes and words; the bytes afterwards.
fn compare_written(dimension: usize, rows: &[u32], columns: &[u32], bytes: usize, words: usize) -> List<u8> {
    let requests = RequestLists { dimension, rows: List::new(rows), columns: List::new(columns) };
    let file = List::made(bytes, |at| at as u8);
    let scratch = List::made(words, |at| 7777 + at as u32);
    compare(Call { function: Function::WriteRequests, requests, file, scratch, ..Call::default() }).file
}

/// A file read into lists of these lengths; the lists afterwards.
fn compare_call(text: &[u8], rows: usize, columns: usize) -> PairLists {
    let words = |length: usize| List::made(length, |at| 7777 + at as u32);
    let pairs = PairLists { rows: words(rows), columns: words(columns) };
    compare(Call { function: Function::ReadRequests, text: List::new(text), pairs, ..Call::default() }).pairs
}

/// Ends the run where the library differs; the call with its lists as they are then.
fn compare(call: Call) -> Call {
    let mut made = call.clone();
    let reply = made.make();
    let found = rules::expected(call.clone()).differences(&reply, &made);
    if !found.is_empty() {
        eprintln!("DIFFERENT\n{}\n{}", found.join("\n"), call.told());
        std::process::abort();
    }
    made
}
