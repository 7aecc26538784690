//! Selected entries with pivots in `compare`: by the driver's rules; where every pivot is 1 beside our own family, bit for
//! bit; elsewhere beside our own family on L·sqrt(D), within what roundings make; and beside the Rust's answers.

use crate::call::Call;
use crate::compare::{compare_by_rules, compare_call, Tally};
use crate::expected::Expected;
use crate::function::Function;
use crate::ldl::most_apart;
use crate::ldl_cases::{ldl_cases, GRID};
use crate::ldl_factors::{columns_of, with_roots, with_units};
use crate::list::List;
use crate::random::Random;
use crate::refusals::refusal;
use crate::reply::Reply;
use crate::rules::{expected, limit, place, requested, Factor};
use crate::subjects::{EntryLists, FactorLists, Pair};
use crate::text::Block;
use crate::whole_factors::lists;
use redstartgilt::sys;
use std::collections::BTreeSet;

/// The refusals that cases of a seed must have, of both functions.
const REFUSALS: [u32; 9] = [1, 2, 3, 18, 4, 5, 23, 6, 7];
/// So many lookups in what a call has filled.
const LOOKED_UP: usize = 4;

/// What calls with pivots were held against, how often.
#[derive(Default)]
pub struct Families {
    /// calls with pivots of 1, all lists as our own family's
    units: usize,
    /// the same beside the Rust's answers
    rust: usize,
    /// results and entries held against L·sqrt(D), the entries that differ, and the greatest part of a bound that one takes
    results: usize,
    entries: usize,
    differing: usize,
    greatest: f64,
    /// the greatest relative difference of a diagonal of a grid
    of_grids: f64,
}

impl Families {
    pub fn report(&self) {
        if self.units + self.rust + self.results == 0 {
            return;
        }
        println!("\npivots of 1, bit for bit as our own family: {} calls; as the Rust: {}", self.units, self.rust);
        println!(
            "entries beside L·sqrt(D): {} of {} results, {} of them other bits, at most {:.3} of the bound; diagonals of grids \
             at most {:.1e} of the entry",
            self.entries, self.results, self.differing, self.greatest, self.of_grids
        );
    }
}

/// The cases with pivots of a seed.
pub fn compare_ldl_cases(seed: u64, tally: &mut Tally) {
    let mut random = Random::new(seed);
    let (mut count, before) = (0, tally.unexpected);
    let mut replies = BTreeSet::new();
    for ldl in ldl_cases(seed) {
        let function = ldl.call.function;
        let case = Block::new(&ldl.name, function.name());
        tally.wide(ldl.call.dimension());
        let (reply, calls) = compare_ldl(ldl.call, &case, &mut random, tally);
        replies.insert((function, reply.refusal, reply.status));
        tally.compared("ldl", &case, calls);
        count += 1;
    }
    for function in [Function::LdlEntriesWithLimit, Function::LdlEntries] {
        let answers = [sys::REDSTARTGILT_COMPLETE, sys::REDSTARTGILT_CLOSURE_TOO_LARGE].map(|status| (0, status));
        for (number, status) in answers.into_iter().chain(REFUSALS.map(|number| (number, 0))) {
            if !replies.contains(&(function, number, status)) {
                println!("no case of {} is answered with {number}, status {status}", function.name());
                tally.unexpected += 1;
            }
        }
    }
    println!("ldl of seed {seed}: {count} cases, {} unexpected differences", tally.unexpected - before);
}

/// Makes a call with pivots and compares it; its reply, and how many calls there were.
fn compare_ldl(call: Call, case: &Block, random: &mut Random, tally: &mut Tally) -> (Reply, usize) {
    let by_rules = expected(call.clone());
    let (reply, made) = compare_call(call.clone(), &by_rules, case, tally);
    if reply.refusal > 0 {
        return (reply, 1);
    }
    let factor = Factor::kept(&call.factor).with_diagonals(1.0);
    let mut calls = 1;
    if call.pivots.iter().all(|&pivot| pivot == 1.0) {
        compare_units(&call, &by_rules, &factor, case, tally);
        calls += 1;
    } else if let Some(roots) = with_roots(&factor, &call.pivots) {
        compare_roots(&made, &reply, &factor, roots, case, tally);
        calls += 1;
    }
    if reply.complete() {
        calls += compare_lookups(&made, case, random, tally);
    }
    (reply, calls)
}

/// Our own family's call for the same, with this factor and the limit that applied.
fn ours(call: &Call, factor: FactorLists) -> Call {
    Call { function: Function::EntriesWithLimit, limit: limit(call), factor, pivots: List::default(), ..call.clone() }
}

/// With pivots of 1 the steps are those of our own family with diagonals of 1: -S is (-S)/1, and 1/1 - S' is 1/(1·1) - S'/1.
/// So reply and every list must be the same, whatever the other values are.
fn compare_units(call: &Call, expected: &Expected, factor: &Factor, case: &Block, tally: &mut Tally) {
    let own = ours(call, with_units(factor));
    let after = Call { result: expected.after.result.clone(), scratch: expected.after.scratch.clone(), ..own.clone() };
    let expected = Expected { reply: expected.reply, after, ..*expected };
    compare_call(own, &expected, case, tally);
    tally.families.units += 1;
}

/// Our own family on L·sqrt(D): the same reply, starts and rows, and entries no farther apart than roundings make them.
fn compare_roots(made: &Call, reply: &Reply, factor: &Factor, roots: FactorLists, case: &Block, tally: &mut Tally) {
    let mut own = ours(made, roots);
    let beside = own.make();
    if !reply.same(&beside) {
        tally.differs(&[format!("with pivots {reply:?}, of L·sqrt(D) {beside:?}")], case, made);
    }
    if !reply.complete() || !beside.complete() {
        return;
    }
    let (n, size) = (made.factor.n, reply.closure);
    let (result, other) = (&made.result, &own.result);
    if result.starts[..n + 1] != other.starts[..n + 1] || result.rows[..size] != other.rows[..size] {
        tally.differs(&["with pivots other pairs than of L·sqrt(D)".to_string()], case, made);
        return;
    }
    let set = requested(made).closed(factor);
    let table = |values: &[f64]| {
        let mut table = vec![0.0; set.places()];
        for column in 0..n {
            for p in result.starts[column] as usize..result.starts[column + 1] as usize {
                table[place(result.rows[p] as usize, column)] = values[p];
            }
        }
        table
    };
    let (z, w) = (table(&result.values), table(&other.values));
    let finite = |table: &[f64]| table.iter().all(|x| x.is_finite());
    let bounds = most_apart(factor, &made.pivots, &set, &z, &w);
    if !finite(&z) || !finite(&w) || !finite(&bounds) {
        return;
    }
    tally.families.results += 1;
    for (row, column) in set.listed() {
        let p = place(row, column);
        let apart = (z[p] - w[p]).abs();
        tally.families.entries += 1;
        if apart == 0.0 {
            continue;
        }
        tally.families.differing += 1;
        tally.families.greatest = tally.families.greatest.max(apart / bounds[p]);
        if row == column && case.name.contains(GRID) {
            tally.families.of_grids = tally.families.of_grids.max(apart / w[p]);
        }
        if apart > bounds[p] {
            let what = format!("({row},{column}) is {} and of L·sqrt(D) {}: more than {} apart", z[p], w[p], bounds[p]);
            tally.differs(&[what], case, made);
        }
    }
}

/// What a call has filled is well formed, and lookups in it find what the rules' do; how many calls there were.
fn compare_lookups(made: &Call, case: &Block, random: &mut Random, tally: &mut Tally) -> usize {
    let n = made.factor.n;
    let entries = EntryLists {
        starts: List::new(&made.result.starts[..n + 1]),
        rows: made.result.rows.clone(),
        values: made.result.values.clone(),
    };
    let check = Call { function: Function::CheckResult, entries, ..Call::default() };
    if compare_by_rules(check.clone(), case, tally).refusal > 0 {
        tally.differs(&["what the call has filled is not well formed".to_string()], case, made);
    }
    let set = requested(made).closed(&Factor::kept(&made.factor));
    for _ in 0..LOOKED_UP {
        let pair = Pair { row: random.below(n + 1), column: random.below(n + 1) };
        let (row, column) = pair.ordered();
        let reply = compare_by_rules(Call { function: Function::Get, pair, ..check.clone() }, case, tally);
        if (reply.refusal == 0) != (row < n && set.has(row, column)) {
            tally.differs(&[format!("get ({row},{column}): {reply:?}, beside the set")], case, made);
        }
    }
    1 + LOOKED_UP
}

/// The same factor with pivots of 1, where all its diagonals are 1 and the Rust has answered our own family's call: reply and
/// lists must be as they were, with the diagonals stored, and with all of them left out. How many calls there were.
pub fn compare_with_ones(call: &Call, expected: &Expected, case: &Block, tally: &mut Tally) -> usize {
    if refusal(call) > 0 || Factor::kept(&call.factor).diagonals.iter().any(|&d| d != Some(1.0)) {
        return 0;
    }
    let function =
        if call.function == Function::Entries { Function::LdlEntries } else { Function::LdlEntriesWithLimit };
    let stored = Call { function, pivots: List::made(call.factor.n, |_| 1.0), ..call.clone() };
    let mut columns = columns_of(&call.factor);
    columns.iter_mut().enumerate().for_each(|(c, column)| column.retain(|e| e.0 != c));
    let implied =
        Call { function: Function::LdlEntriesWithLimit, limit: limit(call), factor: lists(&columns), ..stored.clone() };
    for with_pivots in [stored, implied] {
        let after = Call {
            result: expected.after.result.clone(),
            scratch: expected.after.scratch.clone(),
            ..with_pivots.clone()
        };
        compare_call(with_pivots, &Expected { reply: expected.reply, after, ..*expected }, case, tally);
        tally.families.rust += 1;
    }
    2
}
