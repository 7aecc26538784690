//! Calls for `compare` over results of whole numbers: rows whose weights are known within ranges, and tracks; sound ones, ones
//! with one thing spoilt, and with several.

use crate::call::Call;
use crate::compare::some_more;
use crate::faults::{
    absent_pair, bad_cell, bad_column, bad_ends, bad_width, broken_result, large_entry, unequal_lists, Fault,
    ROW_FAULTS, TRACK_FAULTS,
};
use crate::lend::lend;
use crate::list::List;
use crate::random::Random;
use crate::refusals::{GREATEST_SUMMED, GREATEST_WEIGHT, GREATEST_WEIGHTED, MOST_ENTRIES, MOST_TERMS, MOST_WIDTH};
use crate::subjects::TrackLists;
use crate::whole_results::{any_row, any_track, row_of, track_of};

pub struct VarianceCase {
    pub name: String,
    pub call: Call,
}

/// A sort of cases, how many there are, and from how many to how many of these faults each has.
#[derive(Clone, Copy)]
struct Sort {
    name: &'static str,
    count: usize,
    make: fn(&mut Random) -> Call,
    faults: &'static [Fault],
    at_once: [usize; 2],
}

const NONE: [usize; 2] = [0, 0];
const ONE: [usize; 2] = [1, 1];
const SEVERAL: [usize; 2] = [2, 4];

const SORTS: [Sort; 22] = [
    Sort { name: "row", count: 20_000, make: row, faults: &[], at_once: NONE },
    Sort { name: "long-row", count: 300, make: long_row, faults: &[], at_once: NONE },
    Sort { name: "greatest-row", count: 60, make: greatest_row, faults: &[], at_once: NONE },
    Sort { name: "row-sizes", count: 3_000, make: row, faults: &[large_entry], at_once: [1, 3] },
    Sort { name: "row-absent", count: 3_000, make: row, faults: &[absent_pair], at_once: [1, 2] },
    Sort { name: "row-sizes-absent", count: 3_000, make: row, faults: &[large_entry, absent_pair], at_once: SEVERAL },
    Sort { name: "row-columns", count: 2_000, make: row, faults: &[bad_column], at_once: ONE },
    Sort { name: "row-lists", count: 1_000, make: row, faults: &[unequal_lists], at_once: [1, 2] },
    Sort { name: "row-ends", count: 3_000, make: row, faults: &[bad_ends], at_once: ONE },
    Sort { name: "row-broken", count: 2_000, make: row, faults: &[broken_result], at_once: ONE },
    Sort { name: "row-several", count: 10_000, make: row, faults: &ROW_FAULTS, at_once: SEVERAL },
    Sort { name: "track", count: 20_000, make: track, faults: &[], at_once: NONE },
    Sort { name: "wide-track", count: 60, make: wide_track, faults: &[], at_once: NONE },
    Sort { name: "greatest-track", count: 6, make: greatest_track, faults: &[], at_once: NONE },
    Sort { name: "long-track", count: 6, make: long_track, faults: &[], at_once: NONE },
    Sort { name: "track-sizes", count: 3_000, make: track, faults: &[large_entry], at_once: [1, 3] },
    Sort { name: "track-absent", count: 3_000, make: track, faults: &[absent_pair], at_once: [1, 2] },
    Sort {
        name: "track-sizes-absent",
        count: 3_000,
        make: track,
        faults: &[large_entry, absent_pair],
        at_once: SEVERAL,
    },
    Sort { name: "track-cells", count: 1_000, make: track, faults: &[bad_cell], at_once: ONE },
    Sort { name: "track-widths", count: 3_000, make: track, faults: &[bad_width], at_once: ONE },
    Sort { name: "track-broken", count: 2_000, make: track, faults: &[broken_result], at_once: ONE },
    Sort { name: "track-several", count: 10_000, make: track, faults: &TRACK_FAULTS, at_once: SEVERAL },
];

/// The cases of a seed, one by one.
pub fn variance_cases(seed: u64) -> impl Iterator<Item = VarianceCase> {
    SORTS.into_iter().flat_map(move |sort| (0..sort.count).map(move |k| sort.case(seed, k)))
}

/// Calls at the bounds of terms, ends, widths, entries and sums, so many of each sort.
pub fn calls_at_the_bounds(each: usize) -> impl Iterator<Item = Call> {
    let edges = ["long-row", "greatest-row", "row-sizes", "row-ends", "track-sizes", "track-widths"];
    let sorts = SORTS.into_iter().filter(move |sort| edges.contains(&sort.name));
    let wide = SORTS.into_iter().filter(|sort| ["wide-track", "greatest-track"].contains(&sort.name));
    let many = sorts.flat_map(move |sort| (0..each).map(move |k| sort.case(0, k).call));
    many.chain(wide.flat_map(|sort| (0..2).map(move |k| sort.case(0, k).call)))
}

impl Sort {
    /// Made from seed and name alone.
    fn case(self, seed: u64, k: usize) -> VarianceCase {
        let name = format!("variances:{}-{k}", self.name);
        let mut random = Random::named(seed, &name);
        let mut call = (self.make)(&mut random);
        let [least, most] = self.at_once;
        for _ in 0..least + random.below(most - least + 1) {
            random.pick(self.faults)(&mut call, &mut random);
        }
        if random.chance(5) {
            lend(&mut call, &mut random, |random, need| need.saturating_sub(1 + random.below(2)));
        } else {
            lend(&mut call, &mut random, some_more);
        }
        VarianceCase { name, call }
    }
}

fn some_dimension(random: &mut Random) -> usize {
    random.pick(&[1, 2, 3, 5, 8, 12, 24]) + random.below(3)
}

fn row(random: &mut Random) -> Call {
    let n = some_dimension(random);
    let most = random.pick(&[1, 2, 3, 4, 8, n]);
    any_row(random, n, most)
}

/// 63 to 66 terms.
fn long_row(random: &mut Random) -> Call {
    let n = MOST_TERMS + 2 + random.below(20);
    let mut columns: Vec<u32> = (0..n as u32).collect();
    random.shuffle(&mut columns);
    columns.truncate(MOST_TERMS - 1 + random.below(4));
    let most = random.pick(&[1, 9, GREATEST_WEIGHTED]);
    row_of(random, n, &columns, |random| random.whole(most))
}

/// 64 terms with ends of the greatest size and entries of the greatest size: bounds of up to 2^62.
fn greatest_row(random: &mut Random) -> Call {
    let columns: Vec<u32> = (0..MOST_TERMS as u32).collect();
    let signs = random.pick(&[&[1][..], &[-1], &[1, -1]]);
    let mut call = row_of(random, MOST_TERMS, &columns, |random| GREATEST_WEIGHTED * random.pick(signs));
    let [low, high] = random.pick(&[[1, 1], [-1, -1], [-1, 1]]).map(|sign| sign * GREATEST_WEIGHT);
    call.ranges.lows.fill(low);
    call.ranges.highs.fill(high);
    call
}

fn track(random: &mut Random) -> Call {
    let n = some_dimension(random);
    let most = random.pick(&[1, 2, 3, 5, 10, 40]);
    any_track(random, n, most)
}

/// Widths of about 1,024, in a track of few cells hardly longer than a run, or one cell shorter.
fn wide_track(random: &mut Random) -> Call {
    let n = 1 + random.below(6);
    let width = MOST_WIDTH - 2 + random.below(4);
    let length = width + random.pick(&[0, 0, 1, 3]) - usize::from(random.chance(10));
    let cells = List::made(length, |_| random.below(n) as u32);
    let most = random.pick(&[1, 1000, GREATEST_SUMMED]);
    track_of(random, n, TrackLists { cells, width }, |random| random.whole(most))
}

/// Runs of 1,024 cells with entries of the greatest size: sums of up to 2^60.
fn greatest_track(random: &mut Random) -> Call {
    let n = 1 + random.below(6);
    let cells = List::made(MOST_WIDTH + 2, |_| random.below(n) as u32);
    let sign = random.pick(&[1, -1]);
    track_of(random, n, TrackLists { cells, width: MOST_WIDTH }, |_| GREATEST_SUMMED * sign)
}

/// A track of more cells than document 01 allows a list of terms or requests.
fn long_track(random: &mut Random) -> Call {
    let n = 2 + random.below(30);
    let cells = List::made(MOST_ENTRIES + 1 + random.below(9), |_| random.below(n) as u32);
    let width = 1 + random.below(3);
    track_of(random, n, TrackLists { cells, width }, |random| random.whole(1000))
}
