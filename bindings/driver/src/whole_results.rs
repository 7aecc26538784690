//! Rows whose weights are known within ranges, tracks, and results of whole numbers that have the pairs of one.

use crate::call::Call;
use crate::function::Function;
use crate::list::List;
use crate::random::Random;
use crate::ranges;
use crate::refusals::{GREATEST_SUMMED, GREATEST_WEIGHT, GREATEST_WEIGHTED};
use crate::subjects::{EntryLists, RangeLists, TrackLists};
use crate::tracks;
use std::collections::BTreeMap;

/// A low and a high end of a weight within ±most.
fn some_ends(random: &mut Random, most: i64) -> [i64; 2] {
    let (a, b) = (random.whole(most), random.whole(most));
    match random.below(8) {
        0 => [a, a],
        1 => [a.min(0), 0.max(b)],
        2 => [-GREATEST_WEIGHT, a],
        3 => [a, GREATEST_WEIGHT],
        _ => [a.min(b), a.max(b)],
    }
}

/// Ranges for the weights of these columns.
pub fn ranges_of(random: &mut Random, columns: &[u32]) -> RangeLists {
    let most = random.pick(&[0, 1, 2, 3, 10, GREATEST_WEIGHT]);
    let ends: Vec<[i64; 2]> = columns.iter().map(|_| some_ends(random, most)).collect();
    RangeLists {
        columns: List::new(columns),
        lows: List::made(ends.len(), |at| ends[at][0]),
        highs: List::made(ends.len(), |at| ends[at][1]),
    }
}

/// Different cells of n, in any order, at most so many.
fn some_cells(random: &mut Random, n: usize, most: usize) -> Vec<u32> {
    let count = random.below(most.min(n) + 1);
    let mut cells: Vec<u32> = (0..n as u32).collect();
    random.shuffle(&mut cells);
    cells.truncate(count);
    cells
}

/// A track over n cells, of at most so many: any cells, a few of them again and again, or neighbours to and fro; none where
/// there are no cells.
fn some_track(random: &mut Random, n: usize, most: usize) -> TrackLists {
    let length = if n == 0 { 0 } else { 1 + random.below(most) };
    let (sort, few) = (random.below(3), 1 + random.below(4));
    let mut at = random.below(n.max(1));
    let cells = List::made(length, |_| {
        at = match sort {
            0 => random.below(n),
            1 => random.below(n.min(few)),
            _ if random.chance(80) => (at + 1) % n,
            _ => at.saturating_sub(1),
        };
        at as u32
    });
    let width = if random.chance(50) { 1 + random.below(length.clamp(1, 6)) } else { 1 + random.below(length.max(1)) };
    TrackLists { cells, width: width.min(length) }
}

/// How the entries are drawn at whose size is looked: up to some size, a few of them at the greatest.
fn drawn(random: &mut Random, greatest: i64) -> impl Fn(&mut Random) -> i64 {
    let most = random.pick(&[1, 3, 9, 1000, greatest]);
    let edge = random.pick(&[0, 0, 10]);
    move |random| if random.chance(edge) { random.pick(&[greatest, -greatest]) } else { random.whole(most) }
}

/// A result of dimension n with these pairs, in either order, and a few entries more, of any size, at other pairs, above the
/// diagonal and in rows from n on; before the first start and past the last stand others.
fn result_with(
    random: &mut Random,
    n: usize,
    pairs: impl Iterator<Item = (usize, usize)>,
    drawn: impl Fn(&mut Random) -> i64,
) -> EntryLists<i64> {
    let mut columns = vec![BTreeMap::<u32, i64>::new(); n];
    for (a, b) in pairs {
        columns[a.min(b)].entry(a.max(b) as u32).or_insert_with(|| drawn(random));
    }
    let more = if n == 0 || random.chance(40) { 0 } else { random.below(3 * n.min(64)) };
    for _ in 0..more {
        let (row, column) = (random.below(n + 2) as u32, random.below(n));
        let value = if random.chance(50) { random.any_whole() } else { drawn(random) };
        columns[column].entry(row).or_insert(value);
    }
    let junk = |random: &mut Random| if random.chance(20) { random.below(4) } else { 0 };
    let (before, past, longer) = (junk(random), junk(random), junk(random));
    let mut rows: Vec<u32> = (0..before).map(|_| random.bits() as u32).collect();
    let mut values: Vec<i64> = (0..before).map(|_| random.any_whole()).collect();
    let mut starts = vec![before as u32];
    for column in &columns {
        rows.extend(column.keys());
        values.extend(column.values());
        starts.push(rows.len() as u32);
    }
    rows.extend((0..past).map(|_| random.bits() as u32));
    values.extend((0..longer).map(|_| random.any_whole()));
    EntryLists { starts: List::new(&starts), rows: List::new(&rows), values: List::new(&values) }
}

/// The call for a row of these columns over a result of dimension n, which has its pairs.
pub fn row_of(random: &mut Random, n: usize, columns: &[u32], drawn: impl Fn(&mut Random) -> i64) -> Call {
    Call {
        function: Function::VarianceBounds,
        whole_entries: result_with(random, n, ranges::pairs(columns), drawn),
        ranges: ranges_of(random, columns),
        ..Call::default()
    }
}

/// The same for a row of at most so many terms.
pub fn any_row(random: &mut Random, n: usize, most: usize) -> Call {
    let columns = some_cells(random, n, most);
    let drawn = drawn(random, GREATEST_WEIGHTED);
    row_of(random, n, &columns, drawn)
}

/// The call for a track over a result of dimension n, which has the pairs of its runs; without the output.
pub fn track_of(random: &mut Random, n: usize, track: TrackLists, drawn: impl Fn(&mut Random) -> i64) -> Call {
    let whole_entries = result_with(random, n, tracks::pairs(&track), drawn);
    Call { function: Function::TrackVariances, whole_entries, track, ..Call::default() }
}

/// The same for a track of at most so many cells.
pub fn any_track(random: &mut Random, n: usize, most: usize) -> Call {
    let track = some_track(random, n, most);
    let drawn = drawn(random, GREATEST_SUMMED);
    track_of(random, n, track, drawn)
}
