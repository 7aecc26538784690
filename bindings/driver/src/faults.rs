//! What is spoilt in a row whose weights are known within ranges, in a track, and in the result that it is taken over.

use crate::call::Call;
use crate::function::Function;
use crate::list::List;
use crate::random::Random;
use crate::refusals::{GREATEST_SUMMED, GREATEST_WEIGHT, GREATEST_WEIGHTED, MOST_WIDTH};
use crate::subjects::EntryLists;

pub type Fault = fn(&mut Call, &mut Random);

/// Numbers at and past a greatest size.
fn about(greatest: i64) -> [i64; 6] {
    [greatest, -greatest, greatest + 1, -greatest - 1, i64::MAX, i64::MIN]
}

/// A pair that the call needs: two of the row's columns, or two cells of a run.
fn needed(call: &Call, random: &mut Random) -> Option<(usize, usize)> {
    let (columns, track) = (&call.ranges.columns, &call.track);
    if call.function == Function::VarianceBounds {
        return (!columns.is_empty()).then(|| (random.pick(columns) as usize, random.pick(columns) as usize));
    }
    let cells = &track.cells;
    if cells.is_empty() || track.width == 0 {
        return None;
    }
    let at = random.below(cells.len());
    let other = at + random.below(track.width.min(cells.len() - at));
    Some((cells[at] as usize, cells[other] as usize))
}

/// The place of a pair's entry; None where a column is broken.
fn place(entries: &EntryLists<i64>, (a, b): (usize, usize)) -> Option<usize> {
    let end = entries.rows.len().min(entries.values.len());
    let broken = entries.starts.windows(2).any(|s| s[0] > s[1] || s[1] as usize > end);
    if broken || a.max(b) >= entries.dimension() {
        return None;
    }
    entries.column(a.min(b)).find(|&p| entries.rows[p] as usize == a.max(b))
}

/// The place of an entry that the call needs, and its pair.
fn needed_place(call: &Call, random: &mut Random) -> Option<(usize, (usize, usize))> {
    let pair = needed(call, random)?;
    Some((place(&call.whole_entries, pair)?, pair))
}

/// A needed entry at or past the greatest size.
pub fn large_entry(call: &mut Call, random: &mut Random) {
    let greatest = if call.function == Function::VarianceBounds { GREATEST_WEIGHTED } else { GREATEST_SUMMED };
    if let Some((p, _)) = needed_place(call, random) {
        call.whole_entries.values[p] = random.pick(&about(greatest));
    }
}

/// A needed pair absent; of one below the diagonal the entry perhaps stands above it.
pub fn absent_pair(call: &mut Call, random: &mut Random) {
    let Some((p, (a, b))) = needed_place(call, random) else { return };
    let (row, column, entries) = (a.max(b), a.min(b), &mut call.whole_entries);
    let value = entries.values[p];
    entries.rows.edit(|rows| drop(rows.drain(p..=p)));
    entries.values.edit(|values| drop(values.drain(p..=p)));
    entries.starts[column + 1..].iter_mut().for_each(|start| *start -= 1);
    if row == column || random.chance(50) {
        return;
    }
    let places = entries.column(row);
    let at = places.clone().find(|&p| entries.rows[p] as usize >= column).unwrap_or(places.end);
    if entries.rows.get(at).is_some_and(|&there| at < places.end && there as usize == column) {
        entries.values[at] = value;
        return;
    }
    entries.rows.edit(|rows| rows.insert(at, column as u32));
    entries.values.edit(|values| values.insert(at, value));
    entries.starts[row + 1..].iter_mut().for_each(|start| *start += 1);
}

/// The starts, the rows or the number of values broken, or some entry of any size.
pub fn broken_result(call: &mut Call, random: &mut Random) {
    let entries = &mut call.whole_entries;
    match random.below(8) {
        0 => entries.starts.edit(|starts| starts.truncate(starts.len().saturating_sub(1))),
        1 => entries.starts.edit(|starts| starts.push(random.bits() as u32)),
        2 => entries.starts.edit(|starts| starts.clear()),
        3 => entries.rows.edit(|rows| rows.truncate(rows.len().saturating_sub(1))),
        4 => entries.values.edit(|values| values.truncate(values.len().saturating_sub(1))),
        5 if !entries.starts.is_empty() => {
            let (at, any) = (random.below(entries.starts.len()), random.below(entries.rows.len() + 2));
            entries.starts[at] = random.pick(&[0, u32::MAX, any as u32]);
        }
        6 if entries.rows.len() > 1 => {
            let at = 1 + random.below(entries.rows.len() - 1);
            entries.rows[at] = random.pick(&[0, u32::MAX, entries.rows[at - 1]]);
        }
        _ if !entries.values.is_empty() => {
            let at = random.below(entries.values.len());
            entries.values[at] = random.any_whole();
        }
        _ => {}
    }
}

/// An index outside a result, or about its last.
fn index_outside(call: &Call, random: &mut Random) -> u32 {
    let n = call.whole_entries.dimension() as u32;
    random.pick(&[n, n, n.saturating_add(1), n.saturating_sub(1), u32::MAX])
}

/// A column of the row repeated, or outside.
pub fn bad_column(call: &mut Call, random: &mut Random) {
    let outside = index_outside(call, random);
    let columns = &mut call.ranges.columns;
    if !columns.is_empty() {
        let at = random.below(columns.len());
        columns[at] = if random.chance(50) { random.pick(columns) } else { outside };
    }
}

/// A list of the row a term shorter or longer than the others.
pub fn unequal_lists(call: &mut Call, random: &mut Random) {
    fn change<T: crate::list::Item>(list: &mut List<T>, shorter: bool, item: T) {
        list.edit(|list| if shorter { list.truncate(list.len().saturating_sub(1)) } else { list.push(item) });
    }
    let shorter = random.chance(50);
    match random.below(3) {
        0 => change(&mut call.ranges.columns, shorter, random.below(70) as u32),
        1 => change(&mut call.ranges.lows, shorter, 0),
        _ => change(&mut call.ranges.highs, shorter, 1),
    }
}

/// Ends at and past the greatest weight, or a low end above the high one.
pub fn bad_ends(call: &mut Call, random: &mut Random) {
    let ranges = &mut call.ranges;
    let count = ranges.lows.len().min(ranges.highs.len());
    if count == 0 {
        return;
    }
    let at = random.below(count);
    match random.below(4) {
        0 => ranges.lows[at] = random.pick(&about(GREATEST_WEIGHT)),
        1 => ranges.highs[at] = random.pick(&about(GREATEST_WEIGHT)),
        2 => ranges.lows[at] = ranges.highs[at].saturating_add(1),
        _ => std::mem::swap(&mut ranges.lows[at], &mut ranges.highs[at]),
    }
}

/// A cell of the track outside.
pub fn bad_cell(call: &mut Call, random: &mut Random) {
    let outside = index_outside(call, random);
    let cells = &mut call.track.cells;
    if !cells.is_empty() {
        let at = random.below(cells.len());
        cells[at] = outside;
    }
}

/// A width at or past a bound, or one that 32 bits hold as another.
pub fn bad_width(call: &mut Call, random: &mut Random) {
    let (length, width) = (call.track.cells.len(), call.track.width);
    let bounds = [0, 1, length, length + 1, MOST_WIDTH, MOST_WIDTH + 1];
    let large = [(1 << 32) + 1, width.wrapping_add(1 << 32), 1 << 63, usize::MAX];
    call.track.width = if random.chance(60) { random.pick(&bounds) } else { random.pick(&large) };
}

/// What is spoilt in rows, and in tracks.
pub const ROW_FAULTS: [Fault; 6] = [large_entry, absent_pair, broken_result, bad_column, unequal_lists, bad_ends];
pub const TRACK_FAULTS: [Fault; 5] = [large_entry, absent_pair, broken_result, bad_cell, bad_width];
