//! The refusal of a call by documents 01 and 02, read from their text: the first step that fails decides.

use crate::call::Call;
use crate::chains::Chains;
use crate::function::Function;
use crate::list::Item;
use crate::matrix_market;
use crate::ranges;
use crate::rules::{self, Factor};
use crate::subjects::{
    EntryLists, FactorLists, OperatorLists, Pair, PermutationLists, RangeLists, RequestLists, ResultLists, ValueLists,
};
use crate::tracks;
use crate::whole::exact;

pub const MOST_COLUMNS: usize = 4_096;
pub const MOST_ENTRIES: usize = 1_048_576;
/// The greatest size of a weight's ends, and the most terms of a row of such weights.
pub const GREATEST_WEIGHT: i64 = 1_024;
pub const MOST_TERMS: usize = 64;
/// The greatest width of a run.
pub const MOST_WIDTH: usize = 1_024;
/// The greatest size of an entry that is weighted, and of one that is summed along a track.
pub const GREATEST_WEIGHTED: i64 = 1 << 30;
pub const GREATEST_SUMMED: i64 = 1 << 40;

pub type Steps = Result<(), u32>;

/// The refusal's number, 0 for none.
pub fn refusal(call: &Call) -> u32 {
    let steps = match call.function {
        Function::EntriesWithLimit | Function::Entries => entries(call),
        Function::LdlEntriesWithLimit | Function::LdlEntries => ldl_entries(call),
        Function::CheckFactor => factor_bounds(&call.factor).and_then(|()| factor(&call.factor)),
        Function::WholeEntriesWithLimit | Function::WholeEntries => whole_entries(call),
        Function::CheckWholeFactor => factor_bounds(&call.whole_factor).and_then(|()| columns(&call.whole_factor)),
        Function::Get | Function::GetCounted => lookup(&call.entries, &call.pair),
        Function::GetWhole => lookup(&call.whole_entries, &call.pair),
        Function::VarianceBounds => variance_bounds(call),
        Function::TrackVariances => track_variances(call),
        Function::CheckResult => result(&call.entries),
        Function::GetWellFormed => refuse(8, rules::searched(&call.entries, &call.pair).is_none()),
        Function::Diag => diagonal_list(call),
        Function::OriginalDiagWithLimit | Function::OriginalDiag => original_diagonal(call),
        Function::OperatorVariancesWithLimit | Function::OperatorVariances => operator_variances(call),
        Function::CovariancesWithLimit | Function::Covariances => covariances(call),
        Function::DependencyChain => dependency_chain(call),
        Function::FactorPattern => factor_pattern(call),
        Function::OperatorPattern => operator_pattern(call),
        Function::Validate => validate(&call.permutation),
        Function::Inverse => inverse(&call.permutation),
        Function::Reorder => reorder(call),
        Function::ReorderMarked => reorder_marked(call),
        Function::FloorZero => floor(call, false),
        Function::FloorMean => floor(call, true),
        Function::Least => Ok(()),
        Function::ReadRequests => file(call),
        Function::WriteRequests => written_file(call),
    };
    steps.err().unwrap_or(0)
}

fn refuse(number: u32, when: bool) -> Steps {
    if when {
        Err(number)
    } else {
        Ok(())
    }
}

fn outside(list: &[u32], end: usize) -> bool {
    list.iter().any(|&index| index as usize >= end)
}

/// The steps before 7 where a factor and requests are given.
fn factor_and_requests(call: &Call) -> Steps {
    factor_bounds(&call.factor)?;
    request_bound(&call.requests)?;
    factor(&call.factor)?;
    requests(&call.requests, call.factor.n)?;
    diagonals(&call.factor)
}

fn entries(call: &Call) -> Steps {
    factor_and_requests(call)?;
    room(call, &call.result)
}

fn ldl_entries(call: &Call) -> Steps {
    let (n, pivots) = (call.factor.n, &call.pivots);
    factor_bounds(&call.factor)?;
    request_bound(&call.requests)?;
    factor(&call.factor)?;
    refuse(4, pivots.len() != n)?;
    refuse(18, pivots.iter().any(|pivot| !pivot.is_finite()))?;
    requests(&call.requests, n)?;
    refuse(23, Factor::kept(&call.factor).diagonals.iter().flatten().any(|&d| d != 1.0))?;
    refuse(6, pivots.iter().any(|&pivot| pivot <= 0.0))?;
    room(call, &call.result)
}

fn whole_entries(call: &Call) -> Steps {
    factor_bounds(&call.whole_factor)?;
    request_bound(&call.requests)?;
    columns(&call.whole_factor)?;
    requests(&call.requests, call.whole_factor.n)?;
    let factor = Factor::kept(&call.whole_factor);
    refuse(19, factor.diagonals.iter().flatten().any(|&d| d != 1))?;
    refuse(6, factor.diagonals.iter().any(Option::is_none))?;
    room(call, &call.whole_result)?;
    refuse(7, call.work.len() < rules::most_entries(call))?;
    let set = rules::requested(call).closed(&factor);
    refuse(20, set.count() <= rules::limit(call) && exact(&factor, &set).passes())
}

fn dependency_chain(call: &Call) -> Steps {
    let n = call.factor.n;
    factor_and_requests(call)?;
    refuse(7, call.scratch.len() < rules::chain_words(n))?;
    refuse(5, call.pair.row >= n || call.pair.column >= n)?;
    pair_room(call, Chains::of(call).length(call.pair.ordered()))
}

fn original_diagonal(call: &Call) -> Steps {
    let n = call.factor.n;
    factor_bounds(&call.factor)?;
    factor(&call.factor)?;
    refuse(4, call.permutation.orig_to_perm.len() != n)?;
    permutation(&call.permutation.orig_to_perm, None)?;
    diagonals(&call.factor)?;
    room(call, &call.result)?;
    refuse(7, call.output.values.len() < n)?;
    let size = rules::requested(call).closed(&Factor::kept(&call.factor)).count();
    refuse(8, size > rules::limit(call))
}

fn operator_variances(call: &Call) -> Steps {
    let n = call.factor.n;
    factor_bounds(&call.factor)?;
    operator_bounds(&call.operator)?;
    factor(&call.factor)?;
    refuse(4, call.operator.ncols != n)?;
    operator(&call.operator, n)?;
    diagonals(&call.factor)?;
    room(call, &call.result)?;
    refuse(7, call.output.values.len() < call.operator.rows())
}

fn covariances(call: &Call) -> Steps {
    let (n, a, b) = (call.factor.n, &call.operator, &call.other);
    let (a_rows, b_rows) = (&call.row_pairs.a_rows, &call.row_pairs.b_rows);
    factor_bounds(&call.factor)?;
    operator_bounds(a)?;
    operator_bounds(b)?;
    refuse(1, a_rows.len() > MOST_ENTRIES)?;
    factor(&call.factor)?;
    refuse(4, a.ncols != n || b.ncols != n || a_rows.len() != b_rows.len())?;
    operator(a, n)?;
    operator(b, n)?;
    refuse(9, outside(a_rows, a.rows()) || outside(b_rows, b.rows()))?;
    diagonals(&call.factor)?;
    room(call, &call.result)?;
    refuse(7, call.output.values.len() < a_rows.len())
}

fn factor_pattern(call: &Call) -> Steps {
    factor_bounds(&call.factor)?;
    factor(&call.factor)?;
    pattern_room(call)
}

fn operator_pattern(call: &Call) -> Steps {
    refuse(1, call.operator.ncols > MOST_COLUMNS)?;
    operator_bounds(&call.operator)?;
    operator(&call.operator, call.operator.ncols)?;
    pattern_room(call)
}

fn pattern_room(call: &Call) -> Steps {
    refuse(7, call.scratch.len() < rules::mark_words(call.dimension()))?;
    pair_room(call, rules::requested(call).count())
}

/// 7 of the lists that so many pairs are written to.
fn pair_room(call: &Call, pairs: usize) -> Steps {
    refuse(7, call.pairs.rows.len() < pairs || call.pairs.columns.len() < pairs)
}

/// The lookup's steps before it searches its column.
pub fn before_search<V: Item>(entries: &EntryLists<V>, pair: &Pair) -> Steps {
    let (row, column) = pair.ordered();
    refuse(2, entries.starts.is_empty())?;
    refuse(8, column >= entries.dimension())?;
    result_column(entries, column)?;
    refuse(8, row >= entries.dimension())
}

fn lookup<V: Item>(entries: &EntryLists<V>, pair: &Pair) -> Steps {
    let (row, column) = pair.ordered();
    before_search(entries, pair)?;
    refuse(8, rules::found(entries, row, column).is_none())
}

/// The lookup's 2 and 3 of every column.
fn result<V: Item>(entries: &EntryLists<V>) -> Steps {
    refuse(2, entries.starts.is_empty())?;
    (0..entries.dimension()).try_for_each(|column| result_column(entries, column))
}

fn diagonal_list(call: &Call) -> Steps {
    result(&call.entries)?;
    let n = call.entries.dimension();
    refuse(7, call.output.values.len() < n || call.output.marks.len() < n)
}

fn variance_bounds(call: &Call) -> Steps {
    let (entries, RangeLists { columns, lows, highs }) = (&call.whole_entries, &call.ranges);
    result(entries)?;
    refuse(9, columns.len() != lows.len() || columns.len() != highs.len())?;
    refuse(9, outside(columns, entries.dimension()))?;
    refuse(9, columns.iter().enumerate().any(|(at, column)| columns[..at].contains(column)))?;
    refuse(21, columns.len() > MOST_TERMS)?;
    refuse(21, lows.iter().zip(highs.iter()).any(|(low, high)| low > high))?;
    refuse(21, lows.iter().chain(highs.iter()).any(|&end| beyond(end, GREATEST_WEIGHT)))?;
    let pairs = || ranges::pairs(columns).map(|(a, b)| rules::entry(entries, a, b));
    refuse(8, pairs().any(|entry| entry.is_none()))?;
    refuse(20, pairs().flatten().any(|entry| beyond(entry, GREATEST_WEIGHTED)))
}

fn track_variances(call: &Call) -> Steps {
    let (entries, track) = (&call.whole_entries, &call.track);
    result(entries)?;
    refuse(22, track.width == 0 || track.width > MOST_WIDTH || track.width > track.cells.len())?;
    refuse(8, outside(&track.cells, entries.dimension()))?;
    let pairs = || tracks::pairs(track).map(|(a, b)| rules::entry(entries, a, b));
    refuse(8, pairs().any(|entry| entry.is_none()))?;
    refuse(20, pairs().flatten().any(|entry| beyond(entry, GREATEST_SUMMED)))?;
    refuse(7, call.output.wholes.len() < track.runs())
}

/// Whether a number is beyond ±most.
fn beyond(number: i64, most: i64) -> bool {
    number < -most || number > most
}

fn validate(lists: &PermutationLists) -> Steps {
    let (perm, inverse) = (&lists.orig_to_perm, &lists.perm_to_orig);
    refuse(1, perm.len() > MOST_COLUMNS || inverse.len() > MOST_COLUMNS)?;
    refuse(12, perm.len() != inverse.len())?;
    permutation(perm, Some(inverse))
}

fn inverse(lists: &PermutationLists) -> Steps {
    refuse(1, lists.orig_to_perm.len() > MOST_COLUMNS)?;
    permutation(&lists.orig_to_perm, None)?;
    refuse(7, lists.perm_to_orig.len() < lists.orig_to_perm.len())
}

fn reorder(call: &Call) -> Steps {
    let (perm, ValueLists { input, .. }) = (&call.permutation.orig_to_perm, &call.values);
    let n = perm.len();
    refuse(1, n > MOST_COLUMNS || input.len() > MOST_COLUMNS)?;
    refuse(4, input.len() != n)?;
    permutation(perm, None)?;
    refuse(7, call.output.values.len() < n)
}

fn reorder_marked(call: &Call) -> Steps {
    let (perm, ValueLists { input, marks, .. }) = (&call.permutation.orig_to_perm, &call.values);
    let n = perm.len();
    refuse(1, n > MOST_COLUMNS || input.len() > MOST_COLUMNS || marks.len() > MOST_COLUMNS)?;
    refuse(4, input.len() != n || marks.len() != n)?;
    permutation(perm, None)?;
    refuse(7, call.output.values.len() < n || call.output.marks.len() < n)
}

fn floor(call: &Call, scaled: bool) -> Steps {
    let ValueLists { input, scale, .. } = &call.values;
    refuse(1, input.len() > MOST_ENTRIES)?;
    refuse(13, input.iter().any(|x| !x.is_finite()))?;
    refuse(14, scaled && (!scale.is_finite() || *scale < 0.0))?;
    refuse(7, call.output.values.len() < input.len())
}

fn file(call: &Call) -> Steps {
    pair_room(call, matrix_market::read(&call.text)?.rows.len())
}

fn written_file(call: &Call) -> Steps {
    let RequestLists { dimension, rows, columns } = &call.requests;
    refuse(1, *dimension > MOST_COLUMNS)?;
    request_bound(&call.requests)?;
    requests(&call.requests, *dimension)?;
    refuse(5, rows.iter().zip(columns.iter()).any(|(row, column)| row < column))?;
    refuse(24, rows.is_empty() && *dimension > 0)?;
    refuse(7, call.scratch.len() < rules::mark_words(*dimension))?;
    refuse(7, call.file.len() < matrix_market::written(*dimension, rows, columns).len())
}

/// What 2 says of starts but for their number, and 9 of row starts.
fn broken<V>(starts: &[u32], indices: &[u32], values: &[V]) -> bool {
    starts.first() != Some(&0)
        || starts.windows(2).any(|s| s[0] > s[1])
        || starts.last().is_some_and(|&s| s as usize != indices.len())
        || indices.len() != values.len()
}

fn rising(rows: &[u32]) -> bool {
    rows.windows(2).all(|r| r[0] < r[1])
}

/// 1 of a factor.
fn factor_bounds<V: Item>(factor: &FactorLists<V>) -> Steps {
    refuse(1, factor.n > MOST_COLUMNS || factor.rows.len() > MOST_ENTRIES)
}

/// 2 and 3 of a factor whose n is within bounds.
fn columns<V: Item>(factor: &FactorLists<V>) -> Steps {
    let FactorLists { n, starts, rows, values } = factor;
    refuse(2, starts.len() != n + 1 || broken(starts, rows, values))?;
    refuse(3, outside(rows, *n))?;
    refuse(3, starts.windows(2).any(|s| !rising(&rows[s[0] as usize..s[1] as usize])))
}

/// 2, 3 and 18 of a factor of floats whose n is within bounds.
fn factor(factor: &FactorLists) -> Steps {
    columns(factor)?;
    refuse(18, Factor::kept(factor).values().any(|x| !x.is_finite()))
}

/// 1 of requests.
fn request_bound(requests: &RequestLists) -> Steps {
    refuse(1, requests.rows.len() > MOST_ENTRIES)
}

/// 4 and 5 of requests for a factor of dimension n.
fn requests(requests: &RequestLists, n: usize) -> Steps {
    refuse(4, requests.dimension != n || requests.rows.len() != requests.columns.len())?;
    refuse(5, outside(&requests.rows, n) || outside(&requests.columns, n))
}

/// 1 of an operator.
fn operator_bounds(operator: &OperatorLists) -> Steps {
    refuse(1, operator.rows() > MOST_COLUMNS || operator.columns.len() > MOST_ENTRIES)
}

/// 9.
fn operator(operator: &OperatorLists, columns: usize) -> Steps {
    refuse(9, broken(&operator.row_starts, &operator.columns, &operator.weights))?;
    refuse(9, outside(&operator.columns, columns))
}

/// 6 of a factor of floats.
fn diagonals(factor: &FactorLists) -> Steps {
    refuse(6, Factor::kept(factor).diagonals.iter().any(|d| d.is_none_or(|d| d <= 0.0)))
}

/// 7 of the lists that selecting entries fills, and of the scratch.
fn room<V: Item>(call: &Call, result: &ResultLists<V>) -> Steps {
    let (n, entries) = (call.dimension(), rules::most_entries(call));
    refuse(7, result.starts.len() < n + 1 || result.rows.len() < entries || result.values.len() < entries)?;
    refuse(7, call.scratch.len() < rules::scratch_words(n))
}

/// The lookup's 2 and 3 of a column.
fn result_column<V: Item>(entries: &EntryLists<V>, column: usize) -> Steps {
    let places = entries.column(column);
    let end = places.end;
    refuse(2, end < places.start || end > entries.rows.len() || end > entries.values.len())?;
    refuse(3, !rising(&entries.rows[places]))
}

/// 10, 11 and, with the other list of the same length, 12, element by element.
fn permutation(perm: &[u32], inverse: Option<&[u32]>) -> Steps {
    let mut seen = vec![false; perm.len()];
    for (at, &index) in perm.iter().enumerate() {
        let index = index as usize;
        refuse(10, index >= perm.len())?;
        refuse(11, seen[index])?;
        refuse(12, inverse.is_some_and(|inverse| inverse[index] as usize != at))?;
        seen[index] = true;
    }
    Ok(())
}
