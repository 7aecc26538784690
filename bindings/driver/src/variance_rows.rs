//! `benchmark-variances`: the time of bounds on a row's variance, and of variances along a track, beside plain Rust.
//!
//! The plain Rust reads the same lists, each entry by `binary_search` in its column, and checks nothing. For a row it takes the
//! least and the greatest of the four products of ends, in 64-bit numbers. For a track it sums each run's entries in full, and,
//! as another, slides the run by one cell as the library does. All must give the same. Times are processor time, the median of
//! the runs; full sums are timed for the first runs of a track alone, so many that they look up about as many entries in all.

use crate::benchmark::{lent, machine, median_ms, median_of};
use crate::call::Call;
use crate::function::Function;
use crate::list::List;
use crate::random::Random;
use crate::refusals::MOST_TERMS;
use crate::subjects::{EntryLists, RangeLists, TrackLists};
use crate::whole_results::ranges_of;
use std::hint::black_box;
use std::io;

/// The cells of a track.
const CELLS: usize = 10_000;
const WIDTHS: [usize; 3] = [8, 64, 512];
/// Full sums are timed over at most so many entries.
const SUMMED: usize = 1 << 24;

/// The entries of n cells, of all pairs up to so many apart, in whole numbers up to 1,000; where there are gaps, each cell has
/// the number 2i of a result of dimension 2n.
fn band(n: usize, apart: usize, gaps: bool) -> EntryLists<i64> {
    let random = &mut Random::new(1);
    let step = if gaps { 2 } else { 1 };
    let (mut starts, mut rows) = (vec![0], Vec::new());
    for cell in 0..n {
        rows.extend((cell..n.min(cell + apart + 1)).map(|row| (step * row) as u32));
        starts.extend([rows.len() as u32; 2][..step].iter());
    }
    let values = List::made(rows.len(), |_| random.whole(1000));
    EntryLists { starts: List::new(&starts), rows: List::new(&rows), values }
}

/// An entry that is there.
fn get(entries: &EntryLists<i64>, a: u32, b: u32) -> i64 {
    let places = entries.column(a.min(b) as usize);
    let at = entries.rows[places.clone()].binary_search(&a.max(b)).expect("an entry");
    entries.values[places.start + at]
}

/// The bounds of a row.
fn plain_bounds(entries: &EntryLists<i64>, ranges: &RangeLists) -> [i64; 2] {
    let RangeLists { columns, lows, highs } = ranges;
    let mut sums = [0, 0];
    for a in 0..columns.len() {
        for b in 0..columns.len() {
            let z = get(entries, columns[a], columns[b]);
            let products = [lows[a] * lows[b], lows[a] * highs[b], highs[a] * lows[b], highs[a] * highs[b]];
            let (mut low, mut high) = (products[0], products[0]);
            for product in products {
                (low, high) = (low.min(product), high.max(product));
            }
            if a == b && lows[a] <= 0 && 0 <= highs[a] {
                low = 0;
            }
            let ends = if z < 0 { [high * z, low * z] } else { [low * z, high * z] };
            (sums[0], sums[1]) = (sums[0] + ends[0], sums[1] + ends[1]);
        }
    }
    sums
}

/// The variances of the first runs of a track, each summed in full.
fn full_sums(entries: &EntryLists<i64>, track: &TrackLists, output: &mut [i64]) {
    for (place, run) in output.iter_mut().zip(track.cells.windows(track.width)) {
        *place = run.iter().map(|&a| run.iter().map(|&b| get(entries, a, b)).sum::<i64>()).sum();
    }
}

/// The variances of all runs of a track, each from the one before.
fn slid_sums(entries: &EntryLists<i64>, track: &TrackLists, output: &mut [i64]) {
    let (cells, k) = (&track.cells, track.width);
    full_sums(entries, track, &mut output[..1]);
    // what a cell adds to a run's sum
    let border = |cell: u32, rest: &[u32]| {
        2 * rest.iter().map(|&other| get(entries, cell, other)).sum::<i64>() + get(entries, cell, cell)
    };
    for i in 1..output.len() {
        let rest = &cells[i..i + k - 1];
        output[i] = output[i - 1] - border(cells[i - 1], rest) + border(cells[i + k - 1], rest);
    }
}

pub fn benchmark_variances(runs: usize) -> io::Result<()> {
    println!("{}; medians of {runs} runs, processor time", machine());
    rows_of_variances(runs)
}

/// The tables.
pub fn rows_of_variances(runs: usize) -> io::Result<()> {
    rows_of_bounds(runs)?;
    rows_of_tracks(runs)
}

/// A row of 64 terms over results of more and more entries: all of them are checked, 64·64 are looked up.
fn rows_of_bounds(runs: usize) -> io::Result<()> {
    println!("\n| bounds | entries | terms | ours, ns a term pair | without terms, ms | ours, ms | plain, ms | ours / plain |");
    println!("|---|---|---|---|---|---|---|---|");
    for (n, gaps) in [(64, false), (256, false), (1024, false), (64, true), (256, true), (1024, true)] {
        let random = &mut Random::new(2);
        let mut columns: Vec<u32> = (0..n as u32).map(|cell| if gaps { 2 * cell } else { cell }).collect();
        random.shuffle(&mut columns);
        columns.truncate(MOST_TERMS);
        let mut call = Call {
            function: Function::VarianceBounds,
            whole_entries: band(n, n, gaps),
            ranges: ranges_of(random, &columns),
            ..Call::default()
        };
        let reply = call.make();
        if reply.refusal > 0 || plain_bounds(&call.whole_entries, &call.ranges) != [reply.low, reply.high] {
            return Err(io::Error::other("the bounds differ"));
        }
        let ours = median_ms(&mut call, runs);
        let plain = median_of(runs, || {
            black_box(plain_bounds(&call.whole_entries, &call.ranges));
        });
        let pairs = (MOST_TERMS * MOST_TERMS) as f64;
        let checked = median_ms(&mut Call { ranges: RangeLists::default(), ..call.clone() }, runs);
        println!(
            "| {n} cells{} | {} | {MOST_TERMS} | {:.1} | {checked:.3} | {ours:.3} | {plain:.3} | {:.2} |",
            if gaps { ", gaps" } else { "" },
            call.whole_entries.rows.len(),
            ours * 1e6 / pairs,
            ours / plain
        );
    }
    Ok(())
}

/// Tracks of 10,000 cells: each cell once, over a band of as many entries as the runs need; and cells at random of 600, which
/// has every pair.
fn rows_of_tracks(runs: usize) -> io::Result<()> {
    println!(
        "\n| track of {CELLS} cells | width | entries | ours, ns a cell | ns a cell and width | result's checks, ns a cell | \
         slid, ns a cell | full sums, ns a cell | ours / slid | full sums / ours |"
    );
    println!("|---|---|---|---|---|---|---|---|---|---|");
    for (name, n, gaps) in [
        ("along a band", CELLS, false),
        ("along a band, gaps", CELLS, true),
        ("any of 600 cells", 600, false),
        ("any of 600 cells, gaps", 600, true),
    ] {
        for width in WIDTHS {
            let random = &mut Random::new(3);
            let step = if gaps { 2 } else { 1 };
            let cells = List::made(CELLS, |at| step * if n == CELLS { at } else { random.below(n) } as u32);
            let apart = if n == CELLS { width - 1 } else { n };
            let track = TrackLists { cells, width };
            let call = Call {
                function: Function::TrackVariances,
                whole_entries: band(n, apart, gaps),
                track,
                ..Call::default()
            };
            row_of_tracks(name, call, runs)?;
        }
    }
    Ok(())
}

fn row_of_tracks(name: &str, call: Call, runs: usize) -> io::Result<()> {
    let mut call = lent(call);
    let reply = call.make();
    let (entries, track, width) = (&call.whole_entries, &call.track, call.track.width);
    let count = track.runs();
    let summed = count.min(SUMMED / (width * width));
    let (mut slid, mut full) = (vec![0; count], vec![0; summed]);
    slid_sums(entries, track, &mut slid);
    full_sums(entries, track, &mut full);
    if reply.refusal > 0 || call.output.wholes[..] != slid[..] || slid[..summed] != full[..] {
        return Err(io::Error::other(format!("{name}: the variances differ")));
    }
    let slid_ms = median_of(runs, || slid_sums(entries, track, black_box(&mut slid)));
    let full_ms = median_of(runs, || full_sums(entries, track, black_box(&mut full))) * count as f64 / summed as f64;
    let stored = entries.rows.len();
    // a width of 0 is refused after the result is checked
    let track = TrackLists { width: 0, ..call.track.clone() };
    let checked_ms = median_ms(&mut Call { track, ..call.clone() }, runs);
    let ours_ms = median_ms(&mut call, runs);
    let [ours, checked, slid, full] = [ours_ms, checked_ms, slid_ms, full_ms].map(|ms| ms * 1e6 / CELLS as f64);
    println!(
        "| {name} | {width} | {stored} | {ours:.0} | {:.1} | {checked:.0} | {slid:.0} | {full:.0} | {:.2} | {:.1} |",
        ours / width as f64,
        ours / slid,
        full / ours
    );
    Ok(())
}
