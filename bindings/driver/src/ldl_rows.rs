//! `benchmark-ldl`: selected entries of a unit lower factor with pivots beside those of our own family, on the same grids and
//! requests, with the default limit.
//!
//! The pattern is the same: that of the grid's Cholesky factor. The unit lower factor is given with its diagonals stored, and
//! without them. The three calls are timed in turn in each run; times are the medians of the runs, ratios those of the rounds.

use crate::benchmark::{cleared_ms, lent, machine, median, processor_ms, ROUNDS};
use crate::call::Call;
use crate::function::Function;
use crate::grid::grid;
use crate::ldl_factors::{grid_with_pivots, Diagonal};
use crate::list::List;
use crate::rules;
use crate::subjects::{FactorLists, RequestLists};
use std::io;

/// What a call may take of our own family's time.
const TARGET: f64 = 1.1;
/// The sides of the grids.
const SIDES: [usize; 5] = [16, 23, 32, 45, 64];
/// So many diagonals are a few.
const FEW: usize = 8;

/// The calls of a row: our own family, then pivots with diagonals stored, and with none stored.
struct LdlRow {
    name: String,
    calls: [Call; 3],
}

fn ldl_rows() -> impl Iterator<Item = LdlRow> {
    let grids = SIDES.into_iter().flat_map(|side| [false, true].map(|nested| (side, nested)));
    grids.flat_map(|(side, nested)| {
        let n = side * side;
        let own = grid(side, nested);
        let own = FactorLists {
            n,
            starts: List::new(&own.starts),
            rows: List::new(&own.rows),
            values: List::new(&own.values),
        };
        let few: Vec<u32> = (0..FEW).map(|at| (at * (n - 1) / (FEW - 1)) as u32).collect();
        [("diag", (0..n as u32).collect()), ("00", vec![0]), ("few", few)].map(|(what, cells): (_, Vec<u32>)| {
            let call = |function, factor, pivots| Call {
                function,
                factor,
                pivots,
                requests: RequestLists { dimension: n, rows: List::new(&cells), columns: List::new(&cells) },
                ..Call::default()
            };
            let with_pivots = |given| {
                let (factor, pivots, _) = grid_with_pivots(side, nested, given);
                call(Function::LdlEntries, factor, pivots)
            };
            LdlRow {
                name: format!("{side}x{side}-{}-{what}", if nested { "nd" } else { "natural" }),
                calls: [
                    call(Function::Entries, own.clone(), List::default()),
                    with_pivots(Diagonal::Stored),
                    with_pivots(Diagonal::Implied),
                ],
            }
        })
    })
}

/// The median times of calls that have been lent their lists, made in turn in each run, once before the clock starts.
fn medians_in_turn(calls: &mut [Call; 3], runs: usize) -> [f64; 3] {
    let mut times = [(); 3].map(|()| Vec::new());
    for run in 0..runs + 1 {
        for (call, times) in calls.iter_mut().zip(&mut times) {
            let start = processor_ms();
            std::hint::black_box(call.make());
            if run > 0 {
                times.push(processor_ms() - start);
            }
        }
    }
    times.map(median)
}

/// The rows with a line on how they were timed.
pub fn benchmark_ldl(runs: usize) -> io::Result<()> {
    println!("{}; medians of {runs} runs in {ROUNDS} rounds, processor time in ms", machine());
    rows_of_ldl(runs)
}

pub fn rows_of_ldl(runs: usize) -> io::Result<()> {
    println!(
        "\n| L·D·Lᵀ | pairs | pivots | none stored | clearing | L·Lᵀ | pivots / L·Lᵀ | none stored / L·Lᵀ | target | |"
    );
    println!("|---|---|---|---|---|---|---|---|---|---|");
    for LdlRow { name, calls } in ldl_rows() {
        let mut pairs = 0;
        for call in &calls {
            let mut made = lent(call.clone());
            let expected = rules::expected(made.clone());
            let reply = made.make();
            if !reply.complete() || !expected.differences(&reply, &made).is_empty() {
                return Err(io::Error::other(format!("{name}: the entries differ")));
            }
            pairs = reply.closure;
        }
        // times by round: our own family, pivots, those with no diagonal stored, clearing
        let mut times = [(); 4].map(|()| Vec::new());
        for _ in 0..ROUNDS {
            let mut calls = calls.clone().map(lent);
            let timed = medians_in_turn(&mut calls, runs);
            times[..3].iter_mut().zip(timed).for_each(|(times, time)| times.push(time));
            times[3].push(cleared_ms(&mut calls[1], runs));
        }
        let part = |of: usize| median(times[of].iter().zip(&times[0]).map(|(time, own)| time / own).collect());
        let (stored, implied) = (part(1), part(2));
        let met = if stored.max(implied) <= TARGET { "met" } else { "missed" };
        let [own, pivots, none_stored, clearing] = times.map(median);
        println!(
            "| {name} | {pairs} | {pivots:.3} | {none_stored:.3} | {clearing:.3} | {own:.3} | {stored:.2} | {implied:.2} | \
             {TARGET} | {met} |"
        );
    }
    Ok(())
}

/// The call of a row, for a profiler: `ldl:ROW` with pivots, diagonals stored; `own:ROW` of our own family.
pub fn profiled(name: &str) -> Option<Call> {
    let (family, row) = name.split_once(':')?;
    let at = ["own", "ldl"].iter().position(|&known| known == family)?;
    let found = ldl_rows().find(|known| known.name == row)?;
    Some(found.calls[at].clone())
}
