//! `benchmark`: the library's time beside that of the Rust's functions, on the same cases.
//!
//! Both are timed in the same way, each in a process of its own, in rounds one after the other, case by case: processor
//! time of the bare call, one run before the clock starts, the median of the runs; then the median of the rounds, and
//! that of their ratios. Clearing the scratch, which every answer must do, is timed alone beside it. The library's lists
//! are allocated before and reused, and its scratch is 0 from the run before; the Rust allocates in each run. Tables are
//! in Markdown.

use crate::call::Call;
use crate::chains::Chains;
use crate::compare::{call_of, differences};
use crate::function::Function;
use crate::grid::grid;
use crate::ldl_rows;
use crate::lend::lend;
use crate::list::List;
use crate::lookups;
use crate::random::Random;
use crate::reading;
use crate::rules;
use crate::subjects::{FactorLists, OperatorLists, PermutationLists, RequestLists, RowPairLists};
use crate::text::{Block, Blocks};
use crate::variance_rows;
use crate::whole_rows;
use crate::writing;
use std::fs::File;
use std::io::{self, BufRead, BufReader, Write};
use std::path::Path;
use std::process::{Command, Stdio};

/// What the library may take of the Rust's time where the Rust goes by the factor's pattern, and by hash maps.
const FACTOR_TARGET: f64 = 0.12;
const CLOSURE_TARGET: f64 = 0.1;
/// What a chain may take of the time that the Rust's closing of the same requests takes.
const CHAIN_TARGET: f64 = 10.0;

/// How often the two are timed in turn.
pub const ROUNDS: usize = 5;

extern "C" {
    fn clock_gettime(clock: i32, time: *mut [i64; 2]) -> i32;
}

/// The processor time of this process in milliseconds.
pub fn processor_ms() -> f64 {
    const CLOCK_PROCESS_CPUTIME_ID: i32 = 2;
    let mut time = [0; 2];
    assert_eq!(unsafe { clock_gettime(CLOCK_PROCESS_CPUTIME_ID, &mut time) }, 0);
    time[0] as f64 * 1e3 + time[1] as f64 * 1e-6
}

pub fn median(mut times: Vec<f64>) -> f64 {
    times.sort_by(f64::total_cmp);
    times[times.len() / 2]
}

/// The median time of a piece of work, done once before the clock starts.
pub fn median_of(runs: usize, mut work: impl FnMut()) -> f64 {
    work();
    let time = |_| {
        let start = processor_ms();
        work();
        processor_ms() - start
    };
    median((0..runs).map(time).collect())
}

/// The median time of a call that has been lent its lists.
pub fn median_ms(call: &mut Call, runs: usize) -> f64 {
    median_of(runs, || {
        std::hint::black_box(call.make());
    })
}

/// The median time of setting to 0 what every answer leaves 0, the scratch words and the places of the work list: no call
/// can take less.
pub fn cleared_ms(call: &mut Call, runs: usize) -> f64 {
    let used = rules::cleared_words(call.function, call.dimension());
    let places = if call.function.selects_wholes() { rules::most_entries(call) } else { 0 };
    median_of(runs, || {
        std::hint::black_box(&mut call.scratch[..used]).fill(0);
        std::hint::black_box(&mut call.work[..places]).fill(0);
    })
}

pub fn lent(mut call: Call) -> Call {
    lend(&mut call, &mut Random::new(0), |_, need| need);
    call
}

/// What the oracle writes on a text.
fn oracle(folder: &Path, args: &[&str], text: &str) -> io::Result<Vec<u8>> {
    let mut child =
        Command::new(folder.join("oracle")).args(args).stdin(Stdio::piped()).stdout(Stdio::piped()).spawn()?;
    child.stdin.take().expect("piped").write_all(text.as_bytes())?;
    Ok(child.wait_with_output()?.stdout)
}

struct Row {
    route: String,
    closure: usize,
    ours: f64,
    clearing: f64,
    rust: f64,
    ratio: f64,
    /// The clearing's part of the Rust's time.
    least: f64,
}

/// The Rust's answer to a case, which the library's does not differ from.
pub fn answer(folder: &Path, case: &Block) -> io::Result<Block> {
    let answer = Blocks::new(BufReader::new(&oracle(folder, &[], &case.text())?[..])).next()?;
    let answer = answer.ok_or_else(|| io::Error::other("the oracle has no answer"))?;
    if differences(case, &answer) > 0 {
        return Err(io::Error::other(format!("{}: the answers differ", case.name)));
    }
    Ok(answer)
}

/// Compares a case's answers, then times it by the Rust, and a call that asks for the same entries by the library.
fn row(folder: &Path, case: &Block, call: &Call, runs: usize) -> io::Result<Row> {
    let answer = answer(folder, case)?;
    let (route, closure) = (answer.field("route").to_string(), answer.number("closure"));
    Ok(Row { route, closure, ..timed(folder, case, call, runs)? })
}

/// The median time of a case by the Rust.
pub fn rust_ms(folder: &Path, case: &Block, runs: usize) -> io::Result<f64> {
    // the case's name, and the median
    let timed = oracle(folder, &["time", &runs.to_string()], &case.text())?;
    let timed = String::from_utf8_lossy(&timed);
    let time = timed.trim_end().rsplit(' ').next().and_then(|x| x.parse().ok());
    time.ok_or_else(|| io::Error::other(format!("{}: no time in {timed}", case.name)))
}

/// The times alone: the call by the library, the case by the Rust, in turn.
fn timed(folder: &Path, case: &Block, call: &Call, runs: usize) -> io::Result<Row> {
    let (mut ours, mut clearing, mut rust) = (Vec::new(), Vec::new(), Vec::new());
    for _ in 0..ROUNDS {
        rust.push(rust_ms(folder, case, runs)?);
        let mut call = lent(call.clone());
        ours.push(median_ms(&mut call, runs));
        clearing.push(cleared_ms(&mut call, runs));
    }
    let part = |times: &[f64]| median(times.iter().zip(&rust).map(|(time, rust)| time / rust).collect());
    let (ratio, least) = (part(&ours), part(&clearing));
    let (ours, clearing, rust) = (median(ours), median(clearing), median(rust));
    Ok(Row { route: String::new(), closure: 0, ours, clearing, rust, ratio, least })
}

pub fn benchmark(folder: &Path, runs: usize) -> io::Result<()> {
    println!("{}; medians of {runs} runs in {ROUNDS} rounds, processor time in ms\n", machine());
    rows_of_the_timing_set(folder, runs)?;
    rows_of_covariances(folder, runs)?;
    rows_of_chains(folder, runs)?;
    rows_of_patterns(folder, runs)?;
    whole_rows::rows_of_wholes(folder, runs)?;
    ldl_rows::rows_of_ldl(runs)?;
    variance_rows::rows_of_variances(runs)?;
    growth(folder, runs)?;
    split(runs);
    lookups::rows_of_lookups(runs)?;
    reading::rows_of_files(runs)?;
    writing::rows_of_written(runs)
}

/// Makes the call of one case of the timing set alone, or of a row of the whole-number engine or with pivots, for a profiler.
pub fn profile(folder: &Path, name: &str, runs: usize) -> io::Result<()> {
    let call = match whole_rows::profiled(name).or_else(|| ldl_rows::profiled(name)) {
        Some(call) => call,
        None => call_of(&timing_case(folder, name)?),
    };
    let mut call = lent(call);
    for _ in 0..runs {
        std::hint::black_box(call.make());
    }
    Ok(())
}

fn timing_case(folder: &Path, name: &str) -> io::Result<Block> {
    let mut generate = Command::new(folder.join("generate")).arg("timing").stdout(Stdio::piped()).spawn()?;
    let mut cases = Blocks::new(BufReader::new(generate.stdout.take().expect("piped")));
    let mut found = None;
    while let Some(case) = cases.next()? {
        if case.name.ends_with(name) {
            found = Some(case);
        }
    }
    generate.wait()?;
    found.ok_or_else(|| io::Error::other(format!("no case {name}")))
}

pub fn machine() -> String {
    let file = File::open("/proc/cpuinfo").map(BufReader::new);
    let lines = file.into_iter().flat_map(|f| f.lines().map_while(Result::ok));
    lines
        .filter_map(|l| l.strip_prefix("model name").map(|m| m.trim_start_matches([' ', '\t', ':']).to_string()))
        .next()
        .unwrap_or_default()
}

impl Row {
    fn put_head(what: &str) {
        println!(
            "| {what} | Rust's route | pairs | ours | clearing | Rust | ours / Rust | clearing / Rust | target | |"
        );
        println!("|---|---|---|---|---|---|---|---|---|---|");
    }

    fn put(&self, name: &str) {
        let target = if self.route.starts_with("factor") { FACTOR_TARGET } else { CLOSURE_TARGET };
        let met = if self.ratio <= target { "met" } else { "missed" };
        println!(
            "| {name} | {} | {} | {:.3} | {:.3} | {:.3} | {:.3} | {:.3} | {target} | {met} |",
            self.route, self.closure, self.ours, self.clearing, self.rust, self.ratio, self.least
        );
    }
}

/// Each case of the timing set but those of the smallest grids, with its name.
fn each_timing_case(folder: &Path, mut each: impl FnMut(&str, &Block) -> io::Result<()>) -> io::Result<()> {
    let mut generate = Command::new(folder.join("generate")).arg("timing").stdout(Stdio::piped()).spawn()?;
    let mut cases = Blocks::new(BufReader::new(generate.stdout.take().expect("piped")));
    while let Some(case) = cases.next()? {
        let name = case.name.trim_start_matches("timing:");
        if !name.starts_with("16x16") {
            each(name, &case)?;
        }
    }
    generate.wait()?;
    Ok(())
}

fn rows_of_the_timing_set(folder: &Path, runs: usize) -> io::Result<()> {
    Row::put_head("case");
    each_timing_case(folder, |name, case| {
        row(folder, case, &call_of(case), runs)?.put(name);
        Ok(())
    })
}

/// The covariances of every block of cells with every block. The Rust has no such call: it is asked for the same entries
/// by an operator of one row, which has the cells of all blocks, and sums as many terms.
pub fn rows_of_covariances(folder: &Path, runs: usize) -> io::Result<()> {
    println!();
    Row::put_head("covariances");
    each_timing_case(folder, |name, case| {
        if !name.ends_with("-blocks") {
            return Ok(());
        }
        let blocks = call_of(case);
        let call = all_covariances(&blocks);
        let mut made = lent(call.clone());
        let expected = rules::expected(made.clone());
        let reply = made.make();
        if !reply.complete() || !expected.differences(&reply, &made).is_empty() {
            return Err(io::Error::other(format!("{name}: the covariances differ")));
        }
        let mut joined = Block::new(&case.name, "opvar");
        joined.put_factor(&blocks.factor);
        let row_starts = List::new(&[0, blocks.operator.columns.len() as u32]);
        joined.put_operator(&OperatorLists { row_starts, ..blocks.operator });
        let row = row(folder, &joined, &call, runs)?;
        if row.closure != reply.closure {
            return Err(io::Error::other(format!("{name}: the Rust computes other entries")));
        }
        row.put(name);
        Ok(())
    })
}

/// The call for the covariances of each row of an operator with each.
fn all_covariances(call: &Call) -> Call {
    let rows = call.operator.rows();
    Call {
        function: Function::Covariances,
        other: call.operator.clone(),
        row_pairs: RowPairLists {
            a_rows: List::made(rows * rows, |at| (at / rows) as u32),
            b_rows: List::made(rows * rows, |at| (at % rows) as u32),
        },
        ..call.clone()
    }
}

/// Chains to the pair that is farthest from the requests of each case, beside the Rust's closing of these requests alone,
/// without a limit: its `takahashi_dependency_closure`, whose columns are made before the clock starts. The library's call
/// has its checks, the closing by levels, the way back and the clearing of the scratch.
pub fn rows_of_chains(folder: &Path, runs: usize) -> io::Result<()> {
    println!("\n| chains | requests | pairs | chain | ours | clearing | Rust's closing | ours / closing | target | |");
    println!("|---|---|---|---|---|---|---|---|---|---|");
    each_timing_case(folder, |name, case| {
        let asked = call_of(case);
        row_of_chains(folder, name, &asked, runs)?;
        if name.ends_with("-blocks") {
            row_of_chains(folder, &format!("{name}, covariances"), &all_covariances(&asked), runs)?;
        }
        Ok(())
    })
}

/// The row of the requests of a call.
fn row_of_chains(folder: &Path, name: &str, asked: &Call, runs: usize) -> io::Result<()> {
    let requests: Vec<(usize, usize)> = rules::requested(asked).listed().collect();
    let mut call = Call {
        function: Function::DependencyChain,
        requests: RequestLists {
            dimension: asked.factor.n,
            rows: List::made(requests.len(), |at| requests[at].0 as u32),
            columns: List::made(requests.len(), |at| requests[at].1 as u32),
        },
        ..asked.clone()
    };
    let chains = Chains::of(&call);
    (call.pair.row, call.pair.column) = chains.farthest();
    let mut made = lent(call.clone());
    let expected = rules::expected(made.clone());
    let reply = made.make();
    if reply.pairs == 0 || !expected.differences(&reply, &made).is_empty() {
        return Err(io::Error::other(format!("{name}: the chains differ")));
    }
    let mut closing = Block::new("closing", "closing");
    closing.put_factor(&call.factor);
    closing.put("rdim", call.requests.dimension);
    closing.put_numbers("rrows", &call.requests.rows);
    closing.put_numbers("rcols", &call.requests.columns);
    let row = timed(folder, &closing, &call, runs)?;
    let met = if row.ratio <= CHAIN_TARGET { "met" } else { "missed" };
    println!(
        "| {name} | {} | {} | {} | {:.3} | {:.3} | {:.3} | {:.3} | {CHAIN_TARGET} | {met} |",
        requests.len(),
        chains.pairs(),
        reply.pairs,
        row.ours,
        row.clearing,
        row.rust,
        row.ratio
    );
    Ok(())
}

/// The pattern lists of each grid's factor and of its operators, beside the Rust's, which collects a sorted set.
pub fn rows_of_patterns(folder: &Path, runs: usize) -> io::Result<()> {
    println!("\n| pattern list | stored entries or terms | pairs | ours | clearing | Rust | ours / Rust |");
    println!("|---|---|---|---|---|---|---|");
    each_timing_case(folder, |name, case| {
        let asked = call_of(case);
        let mut list;
        let items = match asked.function {
            Function::OriginalDiag => {
                list = Block::new(&case.name, "patfactor");
                list.put_factor(&asked.factor);
                asked.factor.rows.len()
            }
            Function::OperatorVariances => {
                list = Block::new(&case.name, "patoperator");
                list.put_operator(&asked.operator);
                asked.operator.columns.len()
            }
            _ => return Ok(()),
        };
        let answer = answer(folder, &list)?;
        let call = call_of(&list);
        let row = timed(folder, &list, &call, runs)?;
        println!(
            "| {name} | {items} | {} | {:.3} | {:.3} | {:.3} | {:.3} |",
            answer.items("prows").count(),
            row.ours,
            row.clearing,
            row.rust,
            row.ratio
        );
        Ok(())
    })
}

/// The call for the diagonal in original order of a grid.
fn diagonal_of(side: usize, nested: bool) -> Call {
    let grid = grid(side, nested);
    Call {
        function: Function::OriginalDiag,
        factor: FactorLists {
            n: side * side,
            starts: List::new(&grid.starts),
            rows: List::new(&grid.rows),
            values: List::new(&grid.values),
        },
        permutation: PermutationLists { orig_to_perm: List::new(&grid.orig_to_perm), ..PermutationLists::default() },
        ..Call::default()
    }
}

fn growth(folder: &Path, runs: usize) -> io::Result<()> {
    println!("\n| grid | n | stored | requests | pairs | ours | ours, ns a pair | Rust | ours / Rust |");
    println!("|---|---|---|---|---|---|---|---|---|");
    for nested in [false, true] {
        for first in [false, true] {
            for side in [16, 23, 32, 45, 64] {
                let call = diagonal_of(side, nested);
                let mut case = Block::new(&format!("{side}"), if first { "entries" } else { "diagorig" });
                case.put_factor(&call.factor);
                if first {
                    case.put("rdim", call.factor.n);
                    case.put_numbers("rrows", &[0]);
                    case.put_numbers("rcols", &[0]);
                    case.put("limit", "default");
                } else {
                    case.put_numbers("perm", &call.permutation.orig_to_perm);
                }
                let row = row(folder, &case, &call_of(&case), runs)?;
                println!(
                    "| {side}x{side} {} | {} | {} | {} | {} | {:.3} | {:.0} | {:.3} | {:.3} |",
                    if nested { "nested" } else { "natural" },
                    call.factor.n,
                    call.factor.rows.len(),
                    if first { "(0,0)" } else { "all diagonals" },
                    row.closure,
                    row.ours,
                    row.ours * 1e6 / row.closure as f64,
                    row.rust,
                    row.ratio
                );
            }
        }
    }
    Ok(())
}

/// Where the time goes, seen from outside, of the request (0,0): its set is closed with the last pair inserted. A limit
/// of 0 stops after the checks, the clearing of the scratch before and after, and the marking of the request; one short
/// of the set stops when it is closed; the rest is layout and route.
fn split(runs: usize) {
    println!("\n| grid | pairs | checks, clearing, marking | closing | layout, route | whole |");
    println!("|---|---|---|---|---|---|");
    for nested in [false, true] {
        for side in [16, 23, 32, 45, 64] {
            let call = Call {
                function: Function::EntriesWithLimit,
                requests: RequestLists { dimension: side * side, rows: List::new(&[0]), columns: List::new(&[0]) },
                limit: usize::MAX,
                ..diagonal_of(side, nested)
            };
            let pairs = lent(call.clone()).make().closure;
            let time = |limit| median_ms(&mut lent(Call { limit, ..call.clone() }), runs);
            let (marked, closed, whole) = (time(0), time(pairs - 1), time(pairs));
            println!(
                "| {side}x{side} {} | {pairs} | {marked:.3} | {:.3} | {:.3} | {whole:.3} |",
                if nested { "nested" } else { "natural" },
                closed - marked,
                whole - closed
            );
        }
    }
}
