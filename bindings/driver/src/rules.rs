//! The rules of documents 01 and 02: the closed set, the recurrence, and what each accepted call replies and leaves.
//! Sets of pairs are one mark a pair, and the closed set is found in one sweep over the columns.

use crate::call::Call;
use crate::chains::Chains;
use crate::expected::Expected;
use crate::function::Function;
use crate::ldl;
use crate::list::Item;
use crate::matrix_market;
use crate::ranges;
use crate::refusals::{before_search, refusal};
use crate::reply::Reply;
use crate::subjects::{EntryLists, FactorLists, OperatorLists, Pair, ResultLists};
use crate::tracks;
use crate::whole::exact;
use redstartgilt::sys;
use std::cmp::Ordering::{Equal, Greater, Less};
use std::ops::Range;

pub fn triangle(n: usize) -> usize {
    n * (n + 1) / 2
}

/// A bit for each pair.
pub fn mark_words(n: usize) -> usize {
    triangle(n).div_ceil(32)
}

pub fn scratch_words(n: usize) -> usize {
    mark_words(n) + triangle(n) + 4 * n
}

pub fn chain_words(n: usize) -> usize {
    2 * triangle(n) + 4 * n
}

/// The scratch words that a call with an answer leaves 0.
pub fn cleared_words(function: Function, n: usize) -> usize {
    match function {
        Function::FactorPattern | Function::OperatorPattern | Function::WriteRequests => mark_words(n),
        Function::DependencyChain => chain_words(n),
        _ => scratch_words(n),
    }
}

/// Sets to 0 the scratch and, of the whole-number engine, the work list, as far as they are needed.
fn clear(call: &mut Call) {
    let words = cleared_words(call.function, call.dimension());
    call.scratch[..words].fill(0);
    if call.function.selects_wholes() {
        let places = most_entries(call);
        call.work[..places].fill(0);
    }
}

/// The limit that applies: 10 times the stored entries where none is given.
pub fn limit(call: &Call) -> usize {
    if call.function.takes_limit() {
        call.limit
    } else {
        10 * call.stored()
    }
}

/// So many entries the lists of a result must have room for, and the work list.
pub fn most_entries(call: &Call) -> usize {
    limit(call).min(triangle(call.dimension()))
}

/// The kept entries of a factor that passes 1, 2 and 3.
pub struct Factor<V = f64> {
    pub diagonals: Vec<Option<V>>,
    /// The descendants of each column with their values, ascending.
    pub below: Vec<Vec<(usize, V)>>,
}

impl<V: Item> Factor<V> {
    pub fn kept(lists: &FactorLists<V>) -> Self {
        let FactorLists { n, starts, rows, values } = lists;
        let (mut diagonals, mut below) = (Vec::new(), Vec::new());
        for column in 0..*n {
            let places = starts[column] as usize..starts[column + 1] as usize;
            let entries =
                places.map(|p| (rows[p] as usize, values[p])).filter(|e| e.0 >= column && e.1 != V::default());
            let (diagonal, rest): (Vec<_>, Vec<_>) = entries.partition(|e| e.0 == column);
            diagonals.push(diagonal.first().map(|e| e.1));
            below.push(rest);
        }
        Factor { diagonals, below }
    }

    /// The same factor with these diagonals, kept or not.
    pub fn with_diagonals(self, diagonal: V) -> Self {
        Factor { diagonals: vec![Some(diagonal); self.diagonals.len()], ..self }
    }

    pub fn values(&self) -> impl Iterator<Item = V> + '_ {
        self.diagonals.iter().flatten().copied().chain(self.below.iter().flatten().map(|e| e.1))
    }

    fn pairs(&self) -> usize {
        self.values().count()
    }
}

/// A set of pairs row ≥ column, marked row by row.
pub struct Pairs {
    n: usize,
    marks: Vec<bool>,
}

pub fn place(row: usize, column: usize) -> usize {
    triangle(row.max(column)) + row.min(column)
}

impl Pairs {
    fn new(n: usize) -> Self {
        Pairs { n, marks: vec![false; triangle(n)] }
    }

    fn insert(&mut self, row: usize, column: usize) {
        self.marks[place(row, column)] = true;
    }

    pub fn dimension(&self) -> usize {
        self.n
    }

    /// The number of places, one for each pair that there is.
    pub fn places(&self) -> usize {
        self.marks.len()
    }

    pub fn has(&self, row: usize, column: usize) -> bool {
        self.marks[place(row, column)]
    }

    pub fn count(&self) -> usize {
        self.marks.iter().filter(|&&m| m).count()
    }

    /// By row, then by column.
    pub fn listed(&self) -> impl Iterator<Item = (usize, usize)> + '_ {
        (0..self.n).flat_map(move |r| (0..=r).filter(move |&c| self.has(r, c)).map(move |c| (r, c)))
    }

    /// The least closed set that holds these. A pair depends on pairs of later columns, or of later rows of its own.
    pub fn closed<V: Item>(mut self, factor: &Factor<V>) -> Self {
        for column in 0..self.n {
            for row in column..self.n {
                if self.has(row, column) {
                    for &(descendant, _) in &factor.below[column] {
                        self.insert(row, descendant);
                    }
                }
            }
        }
        self
    }
}

/// The pairs that a call asks for, or lists.
pub fn requested(call: &Call) -> Pairs {
    let n = call.dimension();
    let mut pairs = Pairs::new(n);
    match call.function.by_default() {
        Function::OriginalDiag => (0..n).for_each(|i| pairs.insert(i, i)),
        Function::OperatorVariances | Function::OperatorPattern => {
            for row in 0..call.operator.rows() {
                let columns = &call.operator.columns[call.operator.terms(row)];
                for &a in columns {
                    columns.iter().for_each(|&b| pairs.insert(a as usize, b as usize));
                }
            }
        }
        Function::Covariances => {
            let (a_columns, b_columns) = (&call.operator.columns, &call.other.columns);
            for (a_terms, b_terms) in row_pairs(call) {
                for a in a_terms {
                    b_terms.clone().for_each(|b| pairs.insert(a_columns[a] as usize, b_columns[b] as usize));
                }
            }
        }
        Function::FactorPattern => {
            let factor = Factor::kept(&call.factor);
            for column in 0..n {
                if factor.diagonals[column].is_some() {
                    pairs.insert(column, column);
                }
                factor.below[column].iter().for_each(|e| pairs.insert(e.0, column));
            }
        }
        _ => {
            let requests = call.requests.rows.iter().zip(call.requests.columns.iter());
            requests.for_each(|(&r, &c)| pairs.insert(r as usize, c as usize));
        }
    }
    pairs
}

/// The places of the terms of A's row and of B's row, for each row pair.
fn row_pairs(call: &Call) -> impl Iterator<Item = (Range<usize>, Range<usize>)> + '_ {
    let pairs = call.row_pairs.a_rows.iter().zip(call.row_pairs.b_rows.iter());
    pairs.map(|(&a, &b)| (call.operator.terms(a as usize), call.other.terms(b as usize)))
}

/// Takahashi's recurrence over a closed set, each pair's value at its place.
fn recurrence(factor: &Factor, set: &Pairs) -> Vec<f64> {
    let mut z = vec![0.0; set.marks.len()];
    for j in (0..set.n).rev() {
        let d = factor.diagonals[j].unwrap_or(0.0);
        for i in (j + 1..set.n).filter(|&i| set.has(i, j)) {
            let mut s = 0.0;
            for &(k, l) in &factor.below[j] {
                s += l * z[place(i, k)];
            }
            z[place(i, j)] = -s / d;
        }
        if set.has(j, j) {
            let mut s = 0.0;
            for &(k, l) in &factor.below[j] {
                s += l * z[place(k, j)];
            }
            z[place(j, j)] = 1.0 / (d * d) - s / d;
        }
    }
    z
}

/// The value of a row of a result's column that passes the lookup's checks.
pub fn found<V: Item>(entries: &EntryLists<V>, row: usize, column: usize) -> Option<V> {
    entries.column(column).find(|&p| entries.rows[p] as usize == row).map(|p| entries.values[p])
}

/// The entry of a pair of a result's columns, in either order.
pub fn entry<V: Item>(entries: &EntryLists<V>, a: usize, b: usize) -> Option<V> {
    found(entries, a.max(b), a.min(b))
}

/// How many places document 02's search looks at in a part of a column.
fn looks_in(part: &[u32], row: u32) -> usize {
    let middle = part.len() / 2;
    match part.first() {
        None => 0,
        Some(&first) if first == row => 1,
        _ => match row.cmp(&part[middle]) {
            Equal => 2,
            Less => 2 + looks_in(&part[..middle], row),
            Greater => 2 + looks_in(&part[middle + 1..], row),
        },
    }
}

/// How many places a lookup looks at, 0 where it does not search.
pub fn looks(entries: &EntryLists, pair: &Pair) -> usize {
    if before_search(entries, pair).is_err() {
        return 0;
    }
    let (row, column) = pair.ordered();
    looks_in(&entries.rows[entries.column(column)], row as u32)
}

/// The place that halving leaves of a part that is not empty: from its middle on where the row there is not above the one
/// sought, otherwise as many places from its front.
fn halved(part: &[u32], row: u32) -> usize {
    let half = part.len() / 2;
    if half == 0 {
        0
    } else if part[half] <= row {
        half + halved(&part[half..], row)
    } else {
        halved(&part[..part.len() - half], row)
    }
}

/// What the lookup in well-formed results finds in any lists.
pub fn searched(entries: &EntryLists, pair: &Pair) -> Option<f64> {
    let (row, column) = pair.ordered();
    if row >= entries.dimension() {
        return None;
    }
    let places = entries.column(column);
    if places.is_empty() || places.end > entries.rows.len() || places.end > entries.values.len() {
        return None;
    }
    let (part, row) = (&entries.rows[places.clone()], row as u32);
    let (first, last) = (part[0], part[part.len() - 1]);
    let at = if first == row {
        0
    } else if row < first || row > last {
        return None;
    } else if (last - first) as usize == part.len() - 1 {
        (row - first) as usize
    } else {
        halved(part, row)
    };
    (part[at] == row).then(|| entries.values[places.start + at])
}

/// What a call must reply and leave.
pub fn expected(call: Call) -> Expected {
    let number = refusal(&call);
    let mut expected = if number > 0 { refused(number, call) } else { accepted(call) };
    if expected.after.function == Function::GetCounted {
        expected.reply.looks = looks(&expected.after.entries, &expected.after.pair);
    }
    expected
}

/// What a refused call leaves: of a scratch that is long enough the marks end 0 in pattern lists and where a file's bytes are
/// short, and all words where the chain list is short, and after 8; after 20 scratch and work list.
pub fn refused(number: u32, mut call: Call) -> Expected {
    let late = match call.function.by_default() {
        Function::FactorPattern | Function::OperatorPattern | Function::DependencyChain | Function::WriteRequests => {
            number == 7
        }
        Function::OriginalDiag => number == 8,
        function => function.selects_wholes() && number == 20,
    };
    if late && call.scratch.len() >= cleared_words(call.function, call.dimension()) {
        clear(&mut call);
    }
    Expected::untouched(Reply::refused(number), call)
}

fn accepted(mut call: Call) -> Expected {
    match call.function {
        function if function.selects_floats() => selected(call),
        function if function.selects_wholes() => whole_selected(call),
        Function::Get | Function::GetCounted => {
            let (row, column) = call.pair.ordered();
            let value = found(&call.entries, row, column).expect("not refused");
            Expected::untouched(Reply { value, ..Reply::default() }, call)
        }
        Function::GetWellFormed => {
            let value = searched(&call.entries, &call.pair).expect("not refused");
            Expected::untouched(Reply { value, ..Reply::default() }, call)
        }
        Function::GetWhole => {
            let (row, column) = call.pair.ordered();
            let whole = found(&call.whole_entries, row, column).expect("not refused");
            Expected::untouched(Reply { whole, ..Reply::default() }, call)
        }
        Function::VarianceBounds => {
            let [low, high] = ranges::bounds(&call).map(|bound| i64::try_from(bound).expect("within 2^62"));
            Expected::untouched(Reply { low, high, ..Reply::default() }, call)
        }
        Function::TrackVariances => {
            let sums = tracks::sums(&call);
            for (place, &sum) in call.output.wholes.iter_mut().zip(&sums) {
                *place = i64::try_from(sum).expect("within 2^60");
            }
            Expected::untouched(Reply::default(), call)
        }
        Function::Diag => {
            let n = call.entries.dimension();
            for i in 0..n {
                let value = found(&call.entries, i, i);
                call.output.values[i] = value.unwrap_or(0.0);
                call.output.marks[i] = u8::from(value.is_some());
            }
            Expected { output_filled: n, ..Expected::untouched(Reply::default(), call) }
        }
        Function::DependencyChain => {
            let chain = Chains::of(&call).chain(call.pair.ordered());
            for (at, &(row, column)) in chain.iter().enumerate() {
                call.pairs.rows[at] = row as u32;
                call.pairs.columns[at] = column as u32;
            }
            clear(&mut call);
            Expected::untouched(Reply { pairs: chain.len(), ..Reply::default() }, call)
        }
        Function::FactorPattern | Function::OperatorPattern => {
            let set = requested(&call);
            for (at, (row, column)) in set.listed().enumerate() {
                call.pairs.rows[at] = row as u32;
                call.pairs.columns[at] = column as u32;
            }
            clear(&mut call);
            Expected::untouched(Reply { pairs: set.count(), ..Reply::default() }, call)
        }
        Function::Inverse => {
            for (at, &index) in call.permutation.orig_to_perm.iter().enumerate() {
                call.permutation.perm_to_orig[index as usize] = at as u32;
            }
            Expected::untouched(Reply::default(), call)
        }
        Function::Reorder | Function::ReorderMarked => {
            for (at, &index) in call.permutation.orig_to_perm.iter().enumerate() {
                call.output.values[at] = call.values.input[index as usize];
                if call.function == Function::ReorderMarked {
                    call.output.marks[at] = call.values.marks[index as usize];
                }
            }
            Expected { output_filled: call.values.input.len(), ..Expected::untouched(Reply::default(), call) }
        }
        Function::FloorZero | Function::FloorMean => floored(call),
        Function::Least => {
            let input = &call.values.input;
            let negative = input.iter().filter(|&&x| x < 0.0).count();
            let least = input.iter().fold(f64::INFINITY, |least, &x| if x < least { x } else { least });
            let least = if input.is_empty() { 0.0 } else { least };
            Expected::untouched(Reply { negative, least, ..Reply::default() }, call)
        }
        Function::ReadRequests => {
            let read = matrix_market::read(&call.text).expect("not refused");
            let requests = read.rows.len();
            call.pairs.rows[..requests].copy_from_slice(&read.rows);
            call.pairs.columns[..requests].copy_from_slice(&read.columns);
            Expected::untouched(Reply { dimension: read.dimension, requests, ..Reply::default() }, call)
        }
        Function::WriteRequests => {
            let written = matrix_market::written(call.requests.dimension, &call.requests.rows, &call.requests.columns);
            call.file[..written.len()].copy_from_slice(&written);
            clear(&mut call);
            Expected::untouched(Reply { bytes: written.len(), ..Reply::default() }, call)
        }
        // those that write nothing
        _ => Expected::untouched(Reply::default(), call),
    }
}

/// The closed set of a call's requests, and its reply: the status and the counts.
fn diagnosed<V: Item>(call: &Call, factor: &Factor<V>) -> (Pairs, Reply) {
    let set = requested(call);
    let requested = set.count();
    let set = set.closed(factor);
    let (limit, size, pairs) = (limit(call), set.count(), factor.pairs());
    let complete = size <= limit;
    let closure = if complete { size } else { limit + 1 };
    let status = if complete { sys::REDSTARTGILT_COMPLETE } else { sys::REDSTARTGILT_CLOSURE_TOO_LARGE };
    let ratio = closure as f64 / pairs.max(1) as f64;
    (set, Reply { status, requested, closure, factor: pairs, limit, ratio, ..Reply::default() })
}

/// Fills a result's lists with the pairs of a set, by column then row, and the value at each pair's place.
fn fill<V: Item>(result: &mut ResultLists<V>, set: &Pairs, value: impl Fn(usize) -> V) {
    let mut at = 0;
    result.starts[0] = 0;
    for column in 0..set.n {
        for row in (column..set.n).filter(|&row| set.has(row, column)) {
            result.rows[at] = row as u32;
            result.values[at] = value(place(row, column));
            at += 1;
        }
        result.starts[column + 1] = at as u32;
    }
}

fn selected(mut call: Call) -> Expected {
    let ldl = call.function.selects_ldl();
    let kept = Factor::kept(&call.factor);
    let factor = if ldl { kept.with_diagonals(1.0) } else { kept };
    let (set, reply) = diagnosed(&call, &factor);
    clear(&mut call);
    if !reply.complete() {
        return Expected::untouched(reply, call);
    }
    let z = if ldl { ldl::recurrence(&factor, &call.pivots, &set) } else { recurrence(&factor, &set) };
    fill(&mut call.result, &set, |place| z[place]);
    let output_filled = outputs(&mut call, &z);
    Expected { reply, after: call, values_filled: reply.closure, output_filled }
}

/// The same in whole numbers, none of which passes 2^53 where the set is within the limit.
fn whole_selected(mut call: Call) -> Expected {
    let factor = Factor::kept(&call.whole_factor);
    let (set, reply) = diagnosed(&call, &factor);
    clear(&mut call);
    if reply.complete() {
        let z = exact(&factor, &set).entries;
        fill(&mut call.whole_result, &set, |place| i64::try_from(z[place]).expect("within 2^53"));
    }
    Expected::untouched(reply, call)
}

/// The output of a diagonal in original order, of an operator or of row pairs, and its length.
fn outputs(call: &mut Call, z: &[f64]) -> usize {
    let (a, b) = (&call.operator, &call.other);
    let values: Vec<f64> = match call.function.by_default() {
        Function::OriginalDiag => {
            let indices = call.permutation.orig_to_perm.iter().map(|&index| index as usize);
            indices.map(|index| z[place(index, index)]).collect()
        }
        Function::OperatorVariances => (0..a.rows()).map(|row| weighted(a, a.terms(row), a, a.terms(row), z)).collect(),
        Function::Covariances => {
            row_pairs(call).map(|(a_terms, b_terms)| weighted(a, a_terms, b, b_terms, z)).collect()
        }
        _ => Vec::new(),
    };
    call.output.values[..values.len()].copy_from_slice(&values);
    values.len()
}

/// The sum over terms of A and, for each, over terms of B.
fn weighted(a: &OperatorLists, a_terms: Range<usize>, b: &OperatorLists, b_terms: Range<usize>, z: &[f64]) -> f64 {
    let mut sum = 0.0;
    for i in a_terms {
        for j in b_terms.clone() {
            let weight = a.weights[i] * b.weights[j];
            sum += weight * z[place(a.columns[i] as usize, b.columns[j] as usize)];
        }
    }
    sum
}

fn floored(mut call: Call) -> Expected {
    let mut floor = 0.0;
    if call.function == Function::FloorMean {
        let (mut sum, mut count) = (0.0, 0);
        for &x in call.values.input.iter().filter(|&&x| x > 0.0) {
            sum += x;
            count += 1;
        }
        let mean: f64 = if count > 0 { sum / count as f64 } else { 1.0 };
        floor = mean.abs().max(1.0) * call.values.scale;
    }
    let mut hits = 0;
    for (at, &x) in call.values.input.iter().enumerate() {
        let above = x > floor;
        call.output.values[at] = if above { x } else { floor };
        hits += usize::from(!above);
    }
    Expected {
        output_filled: call.values.input.len(),
        ..Expected::untouched(Reply { floor, hits, ..Reply::default() }, call)
    }
}
