//! Rows whose weights are known within ranges, and tracks, in `compare`: by the driver's rules; the bounds beside variances of
//! chosen weights; over results of the whole-number engine also beside the float engine's operator variances.

use crate::call::Call;
use crate::compare::{compare_by_rules, some_more, Tally};
use crate::function::Function;
use crate::lend::lend;
use crate::list::List;
use crate::random::Random;
use crate::ranges::{terms, variance};
use crate::refusals::GREATEST_WEIGHT;
use crate::reply::Reply;
use crate::rules::entry;
use crate::subjects::{EntryLists, OperatorLists, RangeLists, TrackLists};
use crate::text::Block;
use crate::tracks::sums;
use crate::variance_cases::variance_cases;
use crate::whole::GREATEST;
use crate::whole_factors::as_floats;
use crate::whole_results::ranges_of;
use std::collections::BTreeMap;

/// To so many terms a row's bounds are held against all corners.
const CORNER_TERMS: usize = 8;
/// To so many choices of weights a term's bounds are held against them all.
const TERM_CHOICES: i128 = 1_000;
/// So many choices of weights between the ends are tried.
const INNER: usize = 4;
/// The replies that cases of a seed must have.
const BOUNDS_REPLIES: [u32; 7] = [0, 2, 3, 9, 21, 8, 20];
const TRACK_REPLIES: [u32; 7] = [0, 2, 3, 22, 8, 20, 7];

/// What accepted bounds and variances were held against, how often.
#[derive(Default)]
pub struct Choices {
    corners: usize,
    inner: usize,
    equal_ends: usize,
    wider: usize,
    terms: usize,
    operators: usize,
}

impl Choices {
    pub fn report(&self) {
        if self.inner + self.operators == 0 {
            return;
        }
        println!(
            "\nbounds held against all corners: {} rows; against choices between the ends: {}",
            self.corners, self.inner
        );
        println!(
            "equal ends held against the exact variance: {}; wider ranges against the row's own: {}",
            self.equal_ends, self.wider
        );
        println!("terms held against every choice of their weights: {}", self.terms);
        println!("variances held against the float engine's operator variances: {}", self.operators);
    }
}

/// The cases of bounds and tracks of a seed.
pub fn compare_variance_cases(seed: u64, tally: &mut Tally) {
    let mut random = Random::new(seed);
    let (mut count, before) = (0, tally.unexpected);
    let mut replies = BTreeMap::<(Function, u32), usize>::new();
    for variance in variance_cases(seed) {
        let function = variance.call.function;
        let case = Block::new(&variance.name, function.name());
        let (reply, calls) = compare_variance(variance.call, &case, &mut random, tally);
        *replies.entry((function, reply.refusal)).or_default() += 1;
        tally.compared("variances", &case, calls);
        count += 1;
    }
    let must = [(Function::VarianceBounds, BOUNDS_REPLIES), (Function::TrackVariances, TRACK_REPLIES)];
    for (function, number) in must.into_iter().flat_map(|(function, all)| all.map(|number| (function, number))) {
        if !replies.contains_key(&(function, number)) {
            println!("no case of {} is answered with {number}", function.name());
            tally.unexpected += 1;
        }
    }
    println!("variances of seed {seed}: {count} cases, {} unexpected differences", tally.unexpected - before);
}

/// Makes a call of either function and compares it; its reply, and how many calls there were.
fn compare_variance(call: Call, case: &Block, random: &mut Random, tally: &mut Tally) -> (Reply, usize) {
    let reply = compare_by_rules(call.clone(), case, tally);
    if call.function != Function::VarianceBounds || reply.refusal > 0 {
        return (reply, 1);
    }
    compare_choices(&call, &reply, case, random, tally);
    (reply, 3)
}

/// Holds the bounds of an accepted row against choices of its weights; then of a choice alone, and of wider ranges.
fn compare_choices(call: &Call, reply: &Reply, case: &Block, random: &mut Random, tally: &mut Tally) {
    let (terms, ranges) = (terms(call), &call.ranges);
    let count = ranges.columns.len();
    for term in terms.iter().filter(|term| term.choices() <= TERM_CHOICES) {
        tally.choices.terms += 1;
        if term.extremes() != term.among_choices() {
            tally.differs(&["a term's bounds are not those among all choices".to_string()], case, call);
        }
    }
    let held = |weights: &[i64], tally: &mut Tally| {
        let sum = variance(&terms, weights);
        if sum < reply.low.into() || sum > reply.high.into() {
            let what =
                format!("the variance with weights {weights:?} is {sum}, beyond {} to {}", reply.low, reply.high);
            tally.differs(&[what], case, call);
        }
        sum
    };
    if count <= CORNER_TERMS {
        tally.choices.corners += 1;
        for corner in 0..1 << count {
            let end = |at: usize| if corner >> at & 1 == 1 { ranges.highs[at] } else { ranges.lows[at] };
            held(&(0..count).map(end).collect::<Vec<_>>(), tally);
        }
    }
    let between = |random: &mut Random, low: i64, high: i64| low + random.below((high - low) as usize + 1) as i64;
    let mut chosen = Vec::new();
    let mut sum = 0;
    for _ in 0..INNER {
        tally.choices.inner += 1;
        chosen = (0..count).map(|at| between(random, ranges.lows[at], ranges.highs[at])).collect();
        sum = held(&chosen, tally);
    }
    let ranged = |lows: &[i64], highs: &[i64]| {
        let ranges = RangeLists { columns: ranges.columns.clone(), lows: List::new(lows), highs: List::new(highs) };
        Call { ranges, ..call.clone() }
    };
    let alone = compare_by_rules(ranged(&chosen, &chosen), case, tally);
    tally.choices.equal_ends += 1;
    if alone.refusal > 0 || i128::from(alone.low) != sum || i128::from(alone.high) != sum {
        tally.differs(&[format!("with weights {chosen:?} alone {alone:?}, the variance is {sum}")], case, call);
    }
    let lows: Vec<i64> = ranges.lows.iter().map(|&low| between(random, -GREATEST_WEIGHT, low)).collect();
    let highs: Vec<i64> = ranges.highs.iter().map(|&high| between(random, high, GREATEST_WEIGHT)).collect();
    let wider = compare_by_rules(ranged(&lows, &highs), case, tally);
    tally.choices.wider += 1;
    if wider.refusal > 0 || wider.low > reply.low || wider.high < reply.high {
        tally.differs(&[format!("with ranges {lows:?} to {highs:?} {wider:?}, of those within {reply:?}")], case, call);
    }
}

/// A row and a track over a result of the whole-number engine; how many calls there were. Where they are accepted, the
/// variance of the row's low ends, and of each run, must be what the float engine gives for an operator of these rows.
pub fn compare_over_result(made: &Call, case: &Block, random: &mut Random, tally: &mut Tally) -> usize {
    let n = made.whole_factor.n;
    if n == 0 {
        return 0;
    }
    let entries = EntryLists {
        starts: List::new(&made.whole_result.starts[..n + 1]),
        rows: made.whole_result.rows.clone(),
        values: made.whole_result.values.clone(),
    };
    let columns = together(&entries, random);
    let row = Call {
        function: Function::VarianceBounds,
        ranges: ranges_of(random, &columns),
        whole_entries: entries.clone(),
        ..Call::default()
    };
    let (reply, mut calls) = compare_variance(row.clone(), case, random, tally);
    if reply.refusal == 0 {
        let weights = &row.ranges.lows;
        calls += compare_operator(
            made,
            &row.whole_entries,
            &[&columns],
            weights,
            &[variance(&terms(&row), weights)],
            case,
            tally,
        );
    }
    let track = track_over(&entries, random);
    let mut call = Call { function: Function::TrackVariances, whole_entries: entries, track, ..Call::default() };
    lend(&mut call, random, some_more);
    let reply = compare_by_rules(call.clone(), case, tally);
    if reply.refusal == 0 {
        let runs: Vec<&[u32]> = call.track.cells.windows(call.track.width).collect();
        calls +=
            compare_operator(made, &call.whole_entries, &runs, &vec![1; call.track.width], &sums(&call), case, tally);
    }
    calls + 1
}

/// Cells of which a result has every pair: some rows of a column, each that has a pair with all before; one in ten of these
/// lists has any cell besides.
fn together(entries: &EntryLists<i64>, random: &mut Random) -> Vec<u32> {
    let n = entries.dimension();
    let mut rows = entries.rows[entries.column(random.below(n))].to_vec();
    random.shuffle(&mut rows);
    let most = random.pick(&[1, 2, 4, 8, 20]);
    let mut cells: Vec<u32> = Vec::new();
    for row in rows {
        let has = |&cell: &u32| entry(entries, row as usize, cell as usize).is_some();
        if cells.len() < most && has(&row) && cells.iter().all(has) {
            cells.push(row);
        }
    }
    if random.chance(10) {
        cells.push(random.below(n) as u32);
    }
    cells
}

/// A track whose runs a result has the pairs of, where it has a diagonal: the next cell is a row of some column up to the last
/// cell, or that cell again; one in ten tracks has other cells besides.
fn track_over(entries: &EntryLists<i64>, random: &mut Random) -> TrackLists {
    let n = entries.dimension();
    let (length, any) = (1 + random.below(30), random.chance(10));
    let width = 1 + random.below(length.min(6));
    let on_diagonal: Vec<u32> = (0..n).filter(|&i| entry(entries, i, i).is_some()).map(|i| i as u32).collect();
    let first = if on_diagonal.is_empty() { random.below(n) as u32 } else { random.pick(&on_diagonal) };
    let mut cells = vec![first];
    while cells.len() < length {
        let last = cells[cells.len() - 1];
        let before = random.below(last as usize + 1);
        let column = entries.column(random.pick(&[last as usize, before]));
        let next = if column.is_empty() { last } else { entries.rows[column.start + random.below(column.len())] };
        let run = &cells[cells.len().saturating_sub(width - 1)..];
        let has = |&cell: &u32| entry(entries, next as usize, cell as usize).is_some();
        let there = has(&next) && run.iter().all(has);
        cells.push(if there || any && random.chance(20) { next } else { last });
    }
    TrackLists { cells: List::new(&cells), width }
}

/// The float engine's operator variances of rows with these weights, which must be the variances given. Left out where a sum
/// may pass 2^53, or the operator's set passes the default limit. How many calls there were.
fn compare_operator(
    made: &Call,
    entries: &EntryLists<i64>,
    rows: &[&[u32]],
    weights: &[i64],
    variances: &[i128],
    case: &Block,
    tally: &mut Tally,
) -> usize {
    let columns = rows.concat();
    let mut call = Call {
        function: Function::OperatorVariances,
        factor: as_floats(&made.whole_factor),
        operator: OperatorLists {
            ncols: made.whole_factor.n,
            row_starts: List::made(rows.len() + 1, |row| (row * weights.len()) as u32),
            weights: List::made(columns.len(), |at| weights[at % weights.len()] as f64),
            columns: List::new(&columns),
        },
        ..Call::default()
    };
    lend(&mut call, &mut Random::new(0), |_, need| need);
    if !call.make().complete() {
        return 1;
    }
    for (at, (&exact, &float)) in variances.iter().zip(call.output.values.iter()).enumerate() {
        if greatest_sum(entries, rows[at], weights) <= GREATEST.into() {
            tally.choices.operators += 1;
            if exact as f64 != float {
                tally.differs(&[format!("row {at} has the variance {exact}, in floats {float}")], case, &call);
            }
        }
    }
    1
}

/// What no sum over a row's terms passes in size.
fn greatest_sum(entries: &EntryLists<i64>, row: &[u32], weights: &[i64]) -> i128 {
    let terms = || row.iter().zip(weights);
    let mut sum = 0;
    for (&a, &w) in terms() {
        for (&b, &v) in terms() {
            let z = entry(entries, a as usize, b as usize).expect("not refused");
            sum += [w, v, z].map(|x| i128::from(x).abs()).iter().product::<i128>();
        }
    }
    sum
}
