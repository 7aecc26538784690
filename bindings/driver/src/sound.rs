//! Sound calls of every function, before lists are lent for writing.

use crate::call::Call;
use crate::files::sound_file;
use crate::function::Function;
use crate::ldl_factors::{any_pivot, columns_of, moderate_pivot, put_some_diagonals};
use crate::list::{Item, List};
use crate::random::Random;
use crate::refusals::MOST_TERMS;
use crate::rules::{requested, triangle, Factor};
use crate::subjects::{
    EntryLists, FactorLists, OperatorLists, Pair, PermutationLists, RequestLists, RowPairLists, ValueLists,
};
use crate::whole::GREATEST;
use crate::whole_factors::lists;
use crate::whole_results::{any_row, any_track};
use crate::written_lists::written_lists;
use std::cmp::Ordering::{self, Equal, Greater, Less};

/// Numbers at and past the greatest size that whole numbers may have.
pub const LARGE: [i64; 6] = [GREATEST, -GREATEST, GREATEST + 1, -GREATEST - 1, i64::MAX, i64::MIN];

fn some_value(random: &mut Random) -> f64 {
    match random.below(20) {
        0..=10 => 4.0 * random.unit() - 2.0,
        11..=14 => random.below(9) as f64 - 4.0,
        15 => 0.0,
        16 => -0.0,
        _ => random.any_value(),
    }
}

/// A value above the diagonal, which is dropped whatever it is: one in three is not finite.
fn some_dropped(random: &mut Random) -> f64 {
    match random.below(9) {
        0 => f64::NAN,
        1 => f64::INFINITY,
        2 => f64::NEG_INFINITY,
        _ => some_value(random),
    }
}

fn some_diagonal(random: &mut Random) -> f64 {
    match random.below(40) {
        0..=19 => 1.0,
        20..=34 => 0.1 + 3.0 * random.unit(),
        35..=38 => random.any_value().abs(),
        _ => random.any_value(),
    }
}

/// How a factor's value is drawn, by where its row stands beside its column.
type Drawn<'a, V> = &'a dyn Fn(&mut Random, Ordering) -> V;

/// Those of a factor of floats with n columns.
fn drawn_float(n: usize) -> impl Fn(&mut Random, Ordering) -> f64 {
    move |random, place| match place {
        Equal if n > 64 => 0.5 + random.unit(),
        Equal => some_diagonal(random),
        Greater => some_value(random),
        Less => some_dropped(random),
    }
}

/// Those of a factor of whole numbers: 1 on the diagonal, of a few factors other numbers too; below it up to some size, of
/// one factor in ten large ones too; above it of any size.
fn drawn_whole(random: &mut Random) -> impl Fn(&mut Random, Ordering) -> i64 {
    let most = random.pick(&[1, 1, 1, 2, 3, 9, 1000, 1 << 20, 1 << 26, 1 << 27]);
    let (faulty, large) = (random.chance(3), random.chance(10));
    move |random, place| match place {
        Equal if faulty && random.chance(20) => random.pick(&[0, 2, -1, i64::MIN, GREATEST]),
        Equal => 1,
        Greater if large && random.chance(10) => random.pick(&LARGE),
        Greater => random.below(2 * most + 1) as i64 - most as i64,
        Less if random.chance(50) => random.pick(&LARGE),
        Less => random.any_whole(),
    }
}

/// A factor of n columns: of some density, with a full first column alone, or, where n is large, of two entries a
/// column.
fn factor_lists<V: Item>(random: &mut Random, n: usize, drawn: Drawn<V>) -> FactorLists<V> {
    let percent = random.pick(&[0, 5, 20, 50, 100]);
    let upper = random.pick(&[0, 0, 10]);
    let (bare, star) = (random.chance(3), n > 32 && random.chance(60));
    let (mut starts, mut rows, mut values) = (vec![0], Vec::new(), Vec::new());
    for c in 0..n {
        if n > 64 {
            rows.push(c as u32);
            values.push(drawn(random, Equal));
            let next = c + 1 + random.below(60);
            if next < n {
                rows.push(next as u32);
                values.push(drawn(random, Greater));
            }
        } else {
            for r in 0..n {
                let there = match r.cmp(&c) {
                    Equal => !(bare && random.chance(20)),
                    Greater if star => c == 0,
                    Greater => random.chance(percent),
                    Less => random.chance(upper),
                };
                if there {
                    rows.push(r as u32);
                    values.push(drawn(random, r.cmp(&c)));
                }
            }
        }
        starts.push(rows.len() as u32);
    }
    FactorLists { n, starts: List::new(&starts), rows: List::new(&rows), values: List::new(&values) }
}

fn float_factor(random: &mut Random, n: usize) -> FactorLists {
    factor_lists(random, n, &drawn_float(n))
}

/// A unit lower factor, its diagonals stored, left out or dropped, and its pivots.
fn unit_factor(random: &mut Random, n: usize) -> (FactorLists, List<f64>) {
    let mut columns = columns_of(&float_factor(random, n));
    put_some_diagonals(&mut columns, random);
    let any = random.chance(50);
    let pivots = List::made(n, |_| if any { any_pivot(random) } else { moderate_pivot(random, 3) });
    (lists(&columns), pivots)
}

fn whole_factor(random: &mut Random, n: usize) -> FactorLists<i64> {
    let drawn = drawn_whole(random);
    factor_lists(random, n, &drawn)
}

/// A result, and the column to look in: the lists of a factor; or, where n is large, one long column of some density,
/// the others empty.
fn result_lists<V: Item>(random: &mut Random, n: usize, drawn: Drawn<V>) -> (EntryLists<V>, usize) {
    if n <= 64 || random.chance(10) {
        let FactorLists { starts, rows, values, .. } = factor_lists(random, n, drawn);
        return (EntryLists { starts, rows, values }, random.below(n.max(1)));
    }
    let (column, percent) = (random.below(n), random.pick(&[1, 10, 50, 90, 100]));
    let rows: Vec<u32> = (column as u32..n as u32).filter(|_| random.chance(percent)).collect();
    let starts = List::made(n + 1, |at| if at > column { rows.len() as u32 } else { 0 });
    let values = List::made(rows.len(), |_| drawn(random, Greater));
    (EntryLists { starts, rows: List::new(&rows), values }, column)
}

/// A pair to look up: mostly one of the column, stored or not; in either order.
fn pair_of_result<V: Item>(random: &mut Random, entries: &EntryLists<V>, column: usize) -> Pair {
    let n = entries.dimension();
    let row = random.below(n + 2);
    let column = if random.chance(80) { column } else { random.below(n + 2) };
    let mut pair = Pair { row, column };
    if column < n && random.chance(75) {
        // a stored entry
        let places = entries.column(column);
        if !places.is_empty() {
            pair.row = entries.rows[places.start + random.below(places.len())] as usize;
        }
    }
    if random.chance(30) {
        pair = Pair { row: pair.column, column: pair.row };
    }
    pair
}

/// Requests, some of them twice.
fn request_lists(random: &mut Random, n: usize) -> RequestLists {
    let count = if n == 0 { 0 } else { random.below(n.min(64) + 3) };
    let mut rows = List::made(count, |_| random.below(n) as u32);
    let mut columns = List::made(count, |_| random.below(n) as u32);
    if count > 0 && random.chance(30) {
        // what needs most
        (rows[0], columns[0]) = (0, 0);
    }
    RequestLists { dimension: n, rows, columns }
}

/// A pair: mostly one of the closed set, in either order; where n is large, any.
fn pair_of_set(random: &mut Random, call: &Call) -> Pair {
    let n = call.factor.n;
    let (mut row, mut column) = (random.below(n.max(1)), random.below(n.max(1)));
    if n <= 64 && random.chance(80) {
        let set: Vec<_> = requested(call).closed(&Factor::kept(&call.factor)).listed().collect();
        if !set.is_empty() {
            (row, column) = random.pick(&set);
            if !random.chance(50) {
                (row, column) = (column, row);
            }
        }
    }
    Pair { row, column }
}

fn operator_lists(random: &mut Random, n: usize) -> OperatorLists {
    let (mut starts, mut columns) = (vec![0], Vec::new());
    for _ in 0..random.below(6) {
        let terms = if n == 0 { 0 } else { random.below(6) };
        columns.extend((0..terms).map(|_| random.below(n) as u32));
        starts.push(columns.len() as u32);
    }
    let weights = List::made(columns.len(), |_| some_value(random));
    OperatorLists { ncols: n, row_starts: List::new(&starts), columns: List::new(&columns), weights }
}

/// Operator B, which is A in one case of five, and row pairs, some of them twice.
fn put_other_operator(call: &mut Call, random: &mut Random) {
    let n = call.factor.n;
    call.other = if random.chance(20) { call.operator.clone() } else { operator_lists(random, n) };
    let (rows, others) = (call.operator.rows(), call.other.rows());
    let count = if rows == 0 || others == 0 { 0 } else { random.below(12) };
    let mut pairs = RowPairLists {
        a_rows: List::made(count, |_| random.below(rows) as u32),
        b_rows: List::made(count, |_| random.below(others) as u32),
    };
    let first = |operator: &OperatorLists| !operator.terms(0).is_empty();
    if n > 32 && count > 0 && first(&call.operator) && first(&call.other) && random.chance(60) {
        // what needs most
        (call.operator.columns[0], call.other.columns[0]) = (0, 0);
        (pairs.a_rows[0], pairs.b_rows[0]) = (0, 0);
    }
    call.row_pairs = pairs;
}

fn permutation(random: &mut Random, n: usize) -> Vec<u32> {
    let mut list: Vec<u32> = (0..n as u32).collect();
    random.shuffle(&mut list);
    list
}

fn some_limit(random: &mut Random, n: usize) -> usize {
    let all = triangle(n);
    match random.below(10) {
        0 => 0,
        1 => all,
        2 => all.saturating_sub(1),
        3 => usize::MAX,
        4 => (1 << 32) + random.below(all + 1),
        5 => random.bits() as usize,
        _ => random.below(all + 2),
    }
}

/// A call that the documents accept, but for some values of a factor, before its lists are lent.
pub fn sound(function: Function, n: usize, random: &mut Random) -> Call {
    let mut call = Call { function, ..Call::default() };
    match function {
        Function::EntriesWithLimit | Function::Entries => {
            call.factor = float_factor(random, n);
            call.requests = request_lists(random, n);
            call.limit = some_limit(random, n);
        }
        Function::LdlEntriesWithLimit | Function::LdlEntries => {
            (call.factor, call.pivots) = unit_factor(random, n);
            call.requests = request_lists(random, n);
            call.limit = some_limit(random, n);
        }
        Function::WholeEntriesWithLimit | Function::WholeEntries => {
            call.whole_factor = whole_factor(random, n);
            call.requests = request_lists(random, n);
            call.limit = some_limit(random, n);
        }
        Function::DependencyChain => {
            call.factor = float_factor(random, n);
            call.requests = request_lists(random, n);
            if random.chance(40) {
                // fewer requests make longer chains
                call.requests.rows.edit(|rows| rows.truncate(1));
                call.requests.columns.edit(|columns| columns.truncate(1));
            }
            call.pair = pair_of_set(random, &call);
        }
        Function::OriginalDiagWithLimit | Function::OriginalDiag => {
            call.factor = float_factor(random, n);
            call.permutation.orig_to_perm = List::new(&permutation(random, n));
            call.limit = some_limit(random, n);
        }
        Function::OperatorVariancesWithLimit | Function::OperatorVariances => {
            call.factor = float_factor(random, n);
            call.operator = operator_lists(random, n);
            call.limit = some_limit(random, n);
        }
        Function::CovariancesWithLimit | Function::Covariances => {
            call.factor = float_factor(random, n);
            call.operator = operator_lists(random, n);
            put_other_operator(&mut call, random);
            call.limit = some_limit(random, n);
        }
        Function::CheckFactor | Function::FactorPattern => call.factor = float_factor(random, n),
        Function::CheckWholeFactor => call.whole_factor = whole_factor(random, n),
        Function::OperatorPattern => call.operator = operator_lists(random, n),
        Function::Get | Function::GetCounted | Function::CheckResult | Function::GetWellFormed | Function::Diag => {
            let (entries, column) = result_lists(random, n, &drawn_float(n));
            call.pair = pair_of_result(random, &entries, column);
            call.entries = entries;
        }
        Function::GetWhole => {
            let drawn = drawn_whole(random);
            let (entries, column) = result_lists(random, n, &drawn);
            call.pair = pair_of_result(random, &entries, column);
            call.whole_entries = entries;
        }
        Function::VarianceBounds => return any_row(random, n, MOST_TERMS),
        Function::TrackVariances => {
            let most = random.pick(&[2, 8, 30]);
            return any_track(random, n, most);
        }
        Function::Validate => {
            let list = permutation(random, n);
            let mut inverse = vec![0; n];
            list.iter().enumerate().for_each(|(at, &index)| inverse[index as usize] = at as u32);
            call.permutation = PermutationLists { orig_to_perm: List::new(&list), perm_to_orig: List::new(&inverse) };
        }
        Function::Inverse => call.permutation.orig_to_perm = List::new(&permutation(random, n)),
        Function::Reorder | Function::ReorderMarked => {
            call.permutation.orig_to_perm = List::new(&permutation(random, n));
            call.values.input = List::made(n, |_| random.any_value());
            if function == Function::ReorderMarked {
                call.values.marks = List::made(n, |_| random.bits() as u8);
            }
        }
        Function::FloorZero | Function::FloorMean => {
            let finite = |x: f64| if x.is_finite() { x } else { 1.0 };
            let input = List::made(n, |_| finite(some_value(random)));
            call.values = ValueLists { input, scale: finite(some_value(random)).abs(), ..ValueLists::default() };
        }
        Function::Least => call.values.input = List::made(n, |_| some_value(random)),
        Function::ReadRequests => call.text = List::new(&sound_file(n, random)),
        Function::WriteRequests => call.requests = written_lists(n, random),
    }
    call
}
