//! The lists that a call is lent for writing: how long they must be, and what they hold before.

use crate::call::Call;
use crate::chains::Chains;
use crate::function::Function;
use crate::list::List;
use crate::matrix_market;
use crate::random::Random;
use crate::refusals::{refusal, MOST_COLUMNS};
use crate::rules::{self, triangle};
use crate::subjects::{PairLists, RequestLists};

/// The lengths that a call needs; small ones where it is refused whatever it is lent.
pub struct Needs {
    starts: usize,
    entries: usize,
    scratch: usize,
    output: usize,
    pairs: usize,
    inverse: usize,
    file: usize,
}

pub fn needs(call: &Call) -> Needs {
    let n = if call.dimension() <= MOST_COLUMNS { call.dimension() } else { 3 };
    let pattern = matches!(call.function, Function::FactorPattern | Function::OperatorPattern);
    // with no list to write into, a pattern or a chain that could be listed is refused with 7 or has no pairs
    let bare = Call { scratch: List::default(), pairs: PairLists::default(), ..call.clone() };
    let chain = call.function == Function::DependencyChain && call.pair.row < n && call.pair.column < n;
    let listed = (pattern || chain) && matches!(refusal(&bare), 0 | 7);
    let RequestLists { dimension, rows, columns } = &call.requests;
    let written = call.function == Function::WriteRequests && matches!(refusal(&bare), 0 | 7);
    Needs {
        starts: n + 1,
        entries: rules::limit(call).min(triangle(n)),
        scratch: rules::cleared_words(call.function, n),
        output: match call.function.by_default() {
            Function::Diag => call.entries.dimension(),
            Function::OriginalDiag => n,
            Function::OperatorVariances => call.operator.rows(),
            Function::Covariances => call.row_pairs.a_rows.len(),
            Function::Reorder | Function::ReorderMarked => call.permutation.orig_to_perm.len(),
            Function::TrackVariances => call.track.runs(),
            _ => call.values.input.len(),
        },
        pairs: match call.function {
            Function::ReadRequests => matrix_market::read(&call.text).map_or(3, |requests| requests.rows.len()),
            Function::DependencyChain if listed => Chains::of(call).length(call.pair.ordered()),
            _ if listed => rules::requested(call).count(),
            _ => 3,
        },
        inverse: call.permutation.orig_to_perm.len(),
        file: if written { matrix_market::written(*dimension, rows, columns).len() } else { 3 },
    }
}

/// Lends lists of the lengths that `length` makes of those needed, with any contents.
pub fn lend(call: &mut Call, random: &mut Random, mut length: impl FnMut(&mut Random, usize) -> usize) {
    let needs = needs(call);
    let mut words = |random: &mut Random, need| {
        let length = length(random, need);
        List::made(length, |_| random.bits() as u32)
    };
    if call.function.selects() {
        let (starts, rows) = (words(random, needs.starts), words(random, needs.entries));
        call.scratch = words(random, needs.scratch);
        if call.function.selects_wholes() {
            (call.whole_result.starts, call.whole_result.rows) = (starts, rows);
        } else {
            (call.result.starts, call.result.rows) = (starts, rows);
        }
    }
    match call.function {
        Function::FactorPattern | Function::OperatorPattern | Function::DependencyChain => {
            call.scratch = words(random, needs.scratch);
            call.pairs.rows = words(random, needs.pairs);
            call.pairs.columns = words(random, needs.pairs);
        }
        Function::WriteRequests => call.scratch = words(random, needs.scratch),
        Function::Inverse => call.permutation.perm_to_orig = words(random, needs.inverse),
        Function::ReadRequests => {
            call.pairs.rows = words(random, needs.pairs);
            call.pairs.columns = words(random, needs.pairs);
        }
        _ => {}
    }
    let mut values = |random: &mut Random, need| {
        let length = length(random, need);
        List::made(length, |_| random.any_value())
    };
    if call.function.selects_floats() {
        call.result.values = values(random, needs.entries);
    }
    match call.function.by_default() {
        Function::Diag
        | Function::OriginalDiag
        | Function::OperatorVariances
        | Function::Covariances
        | Function::Reorder
        | Function::ReorderMarked
        | Function::FloorZero
        | Function::FloorMean => call.output.values = values(random, needs.output),
        _ => {}
    }
    if call.function.selects_wholes() {
        let mut wholes = |random: &mut Random| {
            let length = length(random, needs.entries);
            List::made(length, |_| random.any_whole())
        };
        call.whole_result.values = wholes(random);
        call.work = wholes(random);
    }
    if call.function == Function::TrackVariances {
        let length = length(random, needs.output);
        call.output.wholes = List::made(length, |_| random.any_whole());
    }
    if matches!(call.function, Function::Diag | Function::ReorderMarked) {
        let length = length(random, needs.output);
        call.output.marks = List::made(length, |_| random.bits() as u8);
    }
    if call.function == Function::WriteRequests {
        let length = length(random, needs.file);
        call.file = List::made(length, |_| random.bits() as u8);
    }
}
