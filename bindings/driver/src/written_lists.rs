//! Request lists that are written as files: sound ones, what is spoilt in them, and calls at the bounds.

use crate::call::Call;
use crate::function::Function;
use crate::lend::lend;
use crate::list::List;
use crate::random::Random;
use crate::reading::some_pairs;
use crate::refusals::MOST_COLUMNS;
use crate::subjects::RequestLists;

/// Pairs (row, column).
pub type PairList = Vec<(u32, u32)>;

pub fn lists_of(dimension: usize, pairs: &[(u32, u32)]) -> RequestLists {
    let list = |of: fn(&(u32, u32)) -> u32| List::made(pairs.len(), |at| of(&pairs[at]));
    RequestLists { dimension, rows: list(|pair| pair.0), columns: list(|pair| pair.1) }
}

/// An index below n, one in three where the number of its digits in the file changes.
fn some_index(n: usize, random: &mut Random) -> usize {
    if random.chance(33) {
        random.pick(&[0, 8, 9, 98, 99, 998, 999, n - 1]).min(n - 1)
    } else {
        random.below(n)
    }
}

/// Distinct pairs or nearly so: a few, a column, the diagonal or, where n is small, all that there are.
fn some_set(n: usize, random: &mut Random) -> PairList {
    let end = n as u32;
    match random.below(12) {
        0 => (0..end).map(|cell| (cell, cell)).collect(),
        1 | 2 => {
            let column = some_index(n, random) as u32;
            (column..end.min(column + 200)).map(|row| (row, column)).collect()
        }
        3 | 4 if n <= 40 => (0..end).flat_map(|row| (0..=row).map(move |column| (row, column))).collect(),
        _ => {
            let most = random.pick(&[1, 4, 8, 60]);
            let pair = |random: &mut Random| {
                let (a, b) = (some_index(n, random) as u32, some_index(n, random) as u32);
                (a.max(b), a.min(b))
            };
            (0..1 + random.below(most)).map(|_| pair(random)).collect()
        }
    }
}

/// The same set in another order, some pairs repeated.
pub fn repeated(pairs: &[(u32, u32)], random: &mut Random) -> PairList {
    let mut list = pairs.to_vec();
    if !pairs.is_empty() {
        let more = random.below(2 * pairs.len() + 1);
        list.extend((0..more).map(|_| random.pick(pairs)));
    }
    random.shuffle(&mut list);
    list
}

/// Requests of dimension n in any order, some repeated; none where n is 0.
pub fn written_pairs(n: usize, random: &mut Random) -> PairList {
    let set = if n == 0 { Vec::new() } else { some_set(n, random) };
    repeated(&set, random)
}

/// The same as lists, one in thirty of them empty.
pub fn written_lists(n: usize, random: &mut Random) -> RequestLists {
    let pairs = if random.below(30) == 0 { Vec::new() } else { written_pairs(n, random) };
    lists_of(n, &pairs)
}

/// What is spoilt in requests besides dimension and lists: a pair above the diagonal, one just above it, an index of the
/// dimension, no requests.
pub const WRITTEN_FAULTS: [fn(&mut RequestLists, &mut Random); 4] = [
    |requests, random| {
        if let Some(at) = some_place(requests, random) {
            (requests.rows[at], requests.columns[at]) = (requests.columns[at], requests.rows[at]);
        }
    },
    |requests, random| {
        if let Some(at) = some_place(requests, random) {
            requests.columns[at] = requests.rows[at].wrapping_add(1);
        }
    },
    |requests, random| {
        if let Some(at) = some_place(requests, random) {
            requests.rows[at] = requests.dimension as u32;
        }
    },
    |requests, _| {
        requests.rows.edit(Vec::clear);
        requests.columns.edit(Vec::clear);
    },
];

/// A place that both lists have.
fn some_place(requests: &RequestLists, random: &mut Random) -> Option<usize> {
    let length = requests.rows.len().min(requests.columns.len());
    (length > 0).then(|| random.below(length))
}

/// Calls whose lists are as long as needed, one place longer and one shorter, each and both: of all pairs that there may be
/// at the greatest dimension, of every diagonal cell, of the last row, of one pair and of none.
pub fn written_at_the_bounds(random: &mut Random) -> Vec<Call> {
    let call = |n: usize, pairs: &[(u32, u32)]| Call {
        function: Function::WriteRequests,
        requests: lists_of(n, pairs),
        ..Call::default()
    };
    let most: PairList = some_pairs().iter().map(|&[row, column]| (row as u32 - 1, column as u32 - 1)).collect();
    let mut sets = vec![(MOST_COLUMNS, most), (0, Vec::new()), (1, Vec::new()), (MOST_COLUMNS, Vec::new())];
    sets.push((MOST_COLUMNS + 1, Vec::new()));
    for n in [1, 2, 7, 8, 9, 10, 63, 64, 99, 100, 999, 1000, MOST_COLUMNS - 1, MOST_COLUMNS, MOST_COLUMNS + 1] {
        let last = n as u32 - 1;
        sets.push((n, (0..=last).map(|cell| (cell, cell)).collect()));
        sets.push((n, (0..=last).map(|column| (last, column)).collect()));
        sets.push((n, vec![(last, last)]));
        sets.push((n, vec![(last, 0), (last + 1, 0)]));
        sets.push((n, vec![(0, 0), (last, last + 1)]));
        sets.push((n, vec![(last, last), (0, last)]));
    }
    let mut calls = Vec::new();
    for (n, pairs) in &sets {
        for (bytes, words) in [(0, 0), (1, 0), (0, 1), (-1, 0), (0, -1), (-1, -1), (1, -1), (-1, 1)] {
            let mut call = call(*n, pairs);
            // the scratch is lent before the bytes
            let mut more = [words, bytes].into_iter();
            lend(&mut call, random, |_, need| need.saturating_add_signed(more.next().expect("two lists")));
            calls.push(call);
            if pairs.len() > 100_000 && words > 0 {
                break;
            }
        }
    }
    calls
}
