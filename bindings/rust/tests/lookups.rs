//! Lookups: how many places the search looks at, and that the lookup in well-formed results answers as the checked one.

use redstartgilt::lent::{self, EntryLists};
use redstartgilt::{
    selected_inverse_entries, CholeskyFactor, Error, SparseRowOperator, SparseSelectedInverse, SparseSymmetricPattern,
};
use std::collections::BTreeMap;

/// Lists of a result.
#[derive(Debug, Clone, Default)]
struct Lists {
    starts: Vec<u32>,
    rows: Vec<u32>,
    values: Vec<f64>,
}

impl Lists {
    /// Column 0 alone has entries: these rows, each with its place for a value.
    fn column(rows: &[u32], dimension: usize) -> Self {
        let mut starts = vec![rows.len() as u32; dimension + 1];
        starts[0] = 0;
        Lists {
            starts,
            rows: rows.to_vec(),
            values: (0..rows.len()).map(|place| place as f64).collect(),
        }
    }

    fn entries(&self) -> EntryLists<'_> {
        EntryLists {
            starts: &self.starts,
            rows: &self.rows,
            values: &self.values,
        }
    }
}

/// The place at which a row of a column is found, and the looks.
fn search(rows: &[u32], sought: u32) -> (Option<usize>, usize) {
    let most = rows.last().map_or(0, |last| *last).max(sought);
    let lists = Lists::column(rows, most as usize + 1);
    let found = lent::get_counted(lists.entries(), sought as usize, 0);
    assert_eq!(lent::get(lists.entries(), sought as usize, 0), found.entry);
    match found.entry {
        Ok(value) => (Some(value as usize), found.looks),
        Err(error) => {
            assert_eq!(error, Error::NotCovered);
            (None, found.looks)
        }
    }
}

/// The number of binary digits.
fn digits(number: usize) -> usize {
    (usize::BITS - number.leading_zeros()) as usize
}

/// The looks at a row of an ascending column, by the ends of the part that is left.
fn looks(rows: &[u32], sought: u32) -> usize {
    let (mut low, mut high, mut looks) = (0, rows.len(), 0);
    while low < high {
        let middle = low + (high - low) / 2;
        looks += 1;
        if rows[low] == sought {
            break;
        }
        looks += 1;
        if rows[middle] == sought {
            break;
        }
        if sought < rows[middle] {
            high = middle;
        } else {
            low = middle + 1;
        }
    }
    looks
}

#[test]
fn looks_counted_by_hand() {
    // In every part the first place comes before the middle.
    assert_eq!(search(&[1, 3, 5], 4), (None, 4));
    assert_eq!(search(&[2, 5, 9], 2), (Some(0), 1));
    assert_eq!(search(&[2, 5, 9], 5), (Some(1), 2));
    assert_eq!(search(&[2, 5, 9], 9), (Some(2), 3));
    assert_eq!(search(&[2, 5, 9], 7), (None, 4));
    // The one place of a part of one row is looked at twice.
    assert_eq!(search(&[1], 1), (Some(0), 1));
    assert_eq!(search(&[1], 0), (None, 2));
    assert_eq!(search(&[1], 2), (None, 2));
    // What lies below the middle has the first place in it, and a row below that is sought all the same.
    assert_eq!(search(&[1, 3], 2), (None, 4));
    assert_eq!(search(&[1, 3], 0), (None, 4));
    assert_eq!(search(&[1, 3], 4), (None, 2));
    // Found in the middle.
    assert_eq!(search(&[1, 3], 3), (Some(1), 2));
    // No rows.
    assert_eq!(search(&[], 0), (None, 0));
    // The first place of the part above the middle, that part's middle, and the last of four.
    assert_eq!(search(&[0, 1, 2, 3, 4, 5, 6], 4), (Some(4), 3));
    assert_eq!(search(&[0, 1, 2, 3, 4, 5, 6], 5), (Some(5), 4));
    assert_eq!(search(&[0, 1, 2, 3, 4, 5, 6], 6), (Some(6), 5));
    assert_eq!(search(&[0, 1, 2, 3], 3), (Some(3), 3));
}

/// Every row of a column, and every row that it lacks: 1 look for the first row alone, and at most twice the binary digits
/// of the number of rows, which a row below the first one takes.
#[test]
fn looks_of_every_row() {
    for count in (0..=260).chain([511, 512, 1_023, 1_024, 2_047, 2_048, 4_095, 4_096]) {
        let rows = (0..count as u32).map(|place| 2 * place + 1).collect::<Vec<_>>();
        let lists = Lists::column(&rows, 2 * count + 1);
        let mut most = 0;
        for sought in 0..=2 * count as u32 {
            let found = lent::get_counted(lists.entries(), sought as usize, 0);
            let place = (sought % 2 == 1).then_some(f64::from(sought / 2));
            assert_eq!(found.entry, place.ok_or(Error::NotCovered), "{sought} of {count}");
            assert_eq!(found.looks, looks(&rows, sought), "{sought} of {count}");
            assert_eq!(found.looks == 1, sought == 1 && count > 0, "{sought} of {count}");
            most = most.max(found.looks);
        }
        assert_eq!(most, 2 * digits(count), "{count}");
    }
}

/// The search is not reached.
#[test]
fn no_looks() {
    let uncounted = |starts: &[u32], rows: &[u32], row: usize, column: usize, error: Error| {
        let entries = EntryLists {
            starts,
            rows,
            values: &[1.0, 2.0],
        };
        let found = lent::get_counted(entries, row, column);
        assert_eq!((found.entry, found.looks), (Err(error), 0));
        assert_eq!(lent::get(entries, row, column), Err(error));
    };
    uncounted(&[], &[0, 1], 0, 0, Error::BrokenStarts);
    uncounted(&[0], &[0, 1], 0, 0, Error::NotCovered);
    // Outside: the lesser index, before the column's faults; the other, after them.
    uncounted(&[2, 1, 9], &[1, 0], 2, 2, Error::NotCovered);
    uncounted(&[2, 1, 9], &[1, 0], usize::MAX, usize::MAX, Error::NotCovered);
    uncounted(&[0, 2], &[0, 1], 1, 0, Error::NotCovered);
    uncounted(&[0, 2], &[0, 1], 0, usize::MAX, Error::NotCovered);
    uncounted(&[0, 2], &[1, 0], usize::MAX, 0, Error::BrokenRows);
    // Broken columns.
    uncounted(&[2, 1], &[0, 1], 0, 0, Error::BrokenStarts);
    uncounted(&[0, 3], &[0, 1, 2], 0, 0, Error::BrokenStarts);
    uncounted(&[0, 2], &[0], 0, 0, Error::BrokenStarts);
    uncounted(&[0, 2], &[0, 0], 0, 0, Error::BrokenRows);
}

/// Numbers (xorshift): the same seed gives the same.
struct Random(u64);

impl Random {
    fn below(&mut self, end: usize) -> usize {
        self.0 ^= self.0 << 13;
        self.0 ^= self.0 >> 7;
        self.0 ^= self.0 << 17;
        (self.0 >> 16) as usize % end
    }

    fn chance(&mut self, percent: usize) -> bool {
        self.below(100) < percent
    }

    fn pick<T: Copy>(&mut self, items: &[T]) -> T {
        items[self.below(items.len())]
    }
}

/// A factor of some density, or a band, whose columns are runs.
fn some_factor(n: usize, random: &mut Random) -> CholeskyFactor {
    let (percent, band) = (random.pick(&[0, 5, 20, 60]), random.pick(&[0, 1, 4]));
    let mut triplets = Vec::new();
    for column in 0..n {
        triplets.push((column, column, 1.0 + random.below(8) as f64 / 8.0));
        for row in column + 1..n {
            if row <= column + band || random.chance(percent) {
                triplets.push((row, column, random.below(33) as f64 / 16.0 - 1.0));
            }
        }
    }
    CholeskyFactor::from_triplets(n, &triplets).unwrap()
}

/// Every lookup in a filled result: by each call, in either order, of pairs outside too.
fn check_filled(inverse: &SparseSelectedInverse) {
    let (n, entries) = (inverse.dimension(), inverse.lists());
    assert_eq!(lent::check_result(entries), Ok(()));
    let held = inverse.entries().map(|(row, column, value)| ((row, column), value));
    let held = held.collect::<BTreeMap<_, _>>();
    let indices = || (0..n + 2).chain([1 << 32, usize::MAX - 1, usize::MAX]);
    for row in indices() {
        for column in indices() {
            let pair = (row.max(column), row.min(column));
            let bits = held.get(&pair).map(|value| value.to_bits());
            let same = |found: Option<f64>| assert_eq!(found.map(f64::to_bits), bits, "({row}, {column})");
            same(lent::get(entries, row, column).ok());
            same(lent::get_well_formed(entries, row, column));
            same(inverse.get(row, column));
            let (value, counted) = inverse.get_counted(row, column);
            same(value);
            let expected = if pair.0 < n {
                let places = entries.starts[pair.1] as usize..entries.starts[pair.1 + 1] as usize;
                looks(&entries.rows[places], pair.0 as u32)
            } else {
                0
            };
            assert_eq!(counted, expected, "({row}, {column})");
            if row == column && bits.is_some() {
                assert_eq!(counted, 1, "({row}, {column})");
            }
        }
    }
}

#[test]
fn lookups_in_filled_results() {
    let mut random = Random(1);
    let mut filled = 0;
    for n in (0..=24).chain([40, 65, 100]) {
        for _ in 0..6 {
            let factor = some_factor(n, &mut random);
            let mut requested = SparseSymmetricPattern::new(n);
            for _ in 0..random.pick(&[0, 1, 2, n]) {
                if n > 0 {
                    requested.insert(random.below(n), random.below(n)).unwrap();
                }
            }
            if let Some(inverse) = selected_inverse_entries(&factor, &requested).unwrap().inverse {
                check_filled(&inverse);
                filled += 1;
            }
        }
    }
    assert!(filled > 100, "{filled}");
}

/// Requests of an operator's rows leave columns with gaps.
#[test]
fn lookups_in_columns_with_gaps() {
    let n = 60;
    let diagonal = (0..n).map(|cell| (cell, cell, 2.0)).collect::<Vec<_>>();
    let factor = CholeskyFactor::from_triplets(n, &diagonal).unwrap();
    for step in [1, 2, 3, 7, 11] {
        let row = (0..n).filter(|cell| cell % step == 0 || cell % 13 == 5);
        let operator = SparseRowOperator::new(n, vec![row.map(|cell| (cell, 1.0)).collect()]).unwrap();
        let requested = SparseSymmetricPattern::from_transformed_operator(&operator).unwrap();
        let selected = redstartgilt::selected_inverse_entries_with_limit(&factor, &requested, n * n).unwrap();
        check_filled(&selected.inverse.unwrap());
    }
}

/// What the lookup in well-formed results gives on any lists: the place, by parts that are cut from the column.
fn searched(entries: EntryLists<'_>, row: usize, column: usize) -> Option<f64> {
    let (row, column) = (row.max(column), row.min(column));
    // Both starts of the column are there, and the row is below the dimension.
    entries.starts.get(row.checked_add(1)?)?;
    let places = entries.starts[column] as usize..entries.starts[column + 1] as usize;
    let (part, values) = (entries.rows.get(places.clone())?, entries.values.get(places)?);
    let (first, last) = (*part.first()? as usize, *part.last()? as usize);
    if first == row {
        return Some(values[0]);
    }
    if row < first || last < row {
        return None;
    }
    let mut place = row - first;
    if last - first != part.len() - 1 {
        let mut rest = part;
        place = 0;
        while rest.len() > 1 {
            let half = rest.len() / 2;
            if rest[half] as usize <= row {
                place += half;
                rest = &rest[half..];
            } else {
                rest = &rest[..rest.len() - half];
            }
        }
    }
    (part[place] as usize == row).then(|| values[place])
}

/// 2 and 3 of a whole result.
fn faults(entries: EntryLists<'_>) -> Result<(), Error> {
    if entries.starts.is_empty() {
        return Err(Error::BrokenStarts);
    }
    for ends in entries.starts.windows(2) {
        let places = ends[0] as usize..ends[1] as usize;
        // A range that falls or passes the end gives none.
        let (Some(rows), Some(_)) = (entries.rows.get(places.clone()), entries.values.get(places)) else {
            return Err(Error::BrokenStarts);
        };
        if rows.windows(2).any(|pair| pair[0] >= pair[1]) {
            return Err(Error::BrokenRows);
        }
    }
    Ok(())
}

#[test]
fn well_formed_lookups_in_broken_lists_by_hand() {
    let found = |starts: &[u32], rows: &[u32], row: usize, column: usize| {
        let values = [10.0, 11.0, 12.0, 13.0, 14.0];
        let entries = EntryLists {
            starts,
            rows,
            values: &values,
        };
        lent::get_well_formed(entries, row, column)
    };
    // Column 0 has all four rows.
    let first = &[0, 4, 4, 4, 4, 4, 4, 4, 4, 4];
    // A run by its ends alone: a row counts only at its own place.
    assert_eq!(found(first, &[2, 3, 9, 5], 3, 0), Some(11.0));
    assert_eq!(found(first, &[2, 4, 3, 5], 3, 0), None);
    assert_eq!(found(first, &[2, 4, 3, 5], 0, 5), Some(13.0));
    // The search in rows that fall passes 7 by, and comes upon 3.
    assert_eq!(found(first, &[1, 7, 3, 8], 7, 0), None);
    assert_eq!(found(first, &[1, 7, 3, 8], 3, 0), Some(12.0));
    // A row beyond the last one is not sought, nor one below the first.
    assert_eq!(found(first, &[1, 7, 3, 4], 7, 0), None);
    assert_eq!(found(first, &[5, 1, 3, 8], 1, 0), None);
    // The same row twice: the first place, where it begins the column; otherwise the later.
    assert_eq!(found(first, &[3, 3, 3, 8], 3, 0), Some(10.0));
    assert_eq!(found(first, &[1, 3, 3, 8], 3, 0), Some(12.0));
    // No starts, no columns, starts that fall, ends past rows, ends past values.
    assert_eq!(found(&[], &[0], 0, 0), None);
    assert_eq!(found(&[0], &[0], 0, 0), None);
    assert_eq!(found(&[1, 0], &[0], 0, 0), None);
    assert_eq!(found(&[0, 2], &[0], 0, 0), None);
    assert_eq!(found(&[0, 6], &[0, 1, 2, 3, 4, 5], 0, 0), None);
    // Other columns are not looked at.
    assert_eq!(found(&[9, 0, 1], &[1], 1, 1), Some(10.0));
    assert_eq!(found(&[0, 1, 0], &[1], usize::MAX, 0), None);
}

/// Lists with anything wrong, or nothing.
fn some_lists(random: &mut Random) -> Lists {
    let columns = random.below(7);
    let (sound, ascending) = (random.chance(40), random.chance(40));
    let mut lists = Lists::default();
    if columns < 6 || random.chance(50) {
        lists.starts.push(if sound { 0 } else { random.pick(&[0, 0, 0, 1, 3]) });
    }
    for _ in 0..columns.min(5) {
        let count = random.pick(&[0, 1, 2, 3, 4, 5, 6, 8, 9, 12]);
        let run = random.chance(30);
        let mut row = random.below(3) as u32;
        for _ in 0..count {
            lists.rows.push(if ascending || run {
                row
            } else {
                random.pick(&[0, 1, 2, 3, 4, 5, 6, u32::MAX])
            });
            row += 1 + if run { 0 } else { random.below(2) as u32 };
        }
        if run && !ascending && count > 2 {
            // The ends of a run, with other rows between.
            let place = lists.rows.len() - 2 - random.below(count - 2);
            lists.rows[place] = random.below(9) as u32;
        }
        let end = lists.rows.len() as u32;
        let fault = !sound && random.chance(15);
        lists.starts.push(if fault {
            random.pick(&[0, end / 2, end + 1, u32::MAX])
        } else {
            end
        });
    }
    // Long enough for each row to be looked up.
    let end = lists.rows.len() as u32;
    lists.starts.extend(vec![end; random.below(12)]);
    let less = if sound { 2 } else { random.below(4) };
    let values = (lists.rows.len() + 2).saturating_sub(less);
    lists.values = (0..values).map(|place| place as f64 - 4.0).collect();
    lists
}

#[test]
fn lookups_in_any_lists() {
    let mut random = Random(2);
    let (mut accepted, mut broken, mut missed, mut by_search) = (0, 0, 0, 0);
    for _ in 0..20_000 {
        let lists = some_lists(&mut random);
        let entries = lists.entries();
        let faults = faults(entries);
        assert_eq!(lent::check_result(entries), faults, "{lists:?}");
        let n = lists.starts.len().saturating_sub(1);
        assert_eq!(
            lent::diag(entries, &mut vec![0.0; n], &mut vec![0; n]),
            faults,
            "{lists:?}"
        );
        match faults {
            Ok(()) => accepted += 1,
            Err(_) => broken += 1,
        }
        for _ in 0..12 {
            let index = |random: &mut Random| match random.below(40) {
                0 => usize::MAX,
                1 => 1 << 32,
                2 => n,
                _ => random.below(n.max(1)),
            };
            let (row, column) = (index(&mut random), random.pick(&[0, 0, 1, 2, 3, usize::MAX]));
            let found = lent::get_well_formed(entries, row, column);
            assert_eq!(
                found.map(f64::to_bits),
                searched(entries, row, column).map(f64::to_bits),
                "({row}, {column}) of {lists:?}"
            );
            let checked = lent::get(entries, row, column);
            assert_eq!(lent::get_counted(entries, row, column).entry, checked, "{lists:?}");
            match faults {
                Ok(()) => assert_eq!(found, checked.ok(), "({row}, {column}) of {lists:?}"),
                Err(_) => {
                    missed += usize::from(found.is_none());
                    by_search += usize::from(found.is_some());
                }
            }
        }
    }
    // Every kind of list was there often.
    assert!(accepted > 2_000 && broken > 2_000 && missed > 10_000 && by_search > 10_000);
}
