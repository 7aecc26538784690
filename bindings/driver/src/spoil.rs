//! Random calls: sound ones with something spoilt.

use crate::call::Call;
use crate::faults::{ROW_FAULTS, TRACK_FAULTS};
use crate::files::damage;
use crate::function::Function;
use crate::ldl_faults::LDL_FAULTS;
use crate::lend::lend;
use crate::list::{Item, List};
use crate::random::Random;
use crate::refusals::MOST_COLUMNS;
use crate::sound::{sound, LARGE as LARGE_WHOLES};
use crate::subjects::{EntryLists, FactorLists, OperatorLists, Pair, RangeLists, RequestLists, TrackLists};
use crate::written_lists::WRITTEN_FAULTS;

/// One call of so many is large.
const LARGE: usize = 4_000;

/// An index of about n, or any at all.
fn some_index(random: &mut Random, n: usize) -> u32 {
    match random.below(8) {
        0 => random.bits() as u32,
        1 => u32::MAX,
        _ => random.below(n.min(MOST_COLUMNS) + 3) as u32,
    }
}

fn spoil_length<T>(random: &mut Random, list: &mut Vec<T>, mut item: impl FnMut(&mut Random) -> T) {
    match random.below(6) {
        0 => list.clear(),
        1 => list.truncate(random.below(list.len() + 1)),
        2 | 3 => drop(list.pop()),
        4 => list.push(item(random)),
        _ => {
            let more = 1 + random.below(9);
            list.extend((0..more).map(|_| item(random)));
        }
    }
}

fn spoil_words(random: &mut Random, list: &mut List<u32>, n: usize) {
    list.edit(|list| match random.below(6) {
        0 => spoil_length(random, list, |random| some_index(random, n)),
        1 if list.len() > 1 => {
            let at = 1 + random.below(list.len() - 1);
            list.swap(at, at - 1);
        }
        2 if list.len() > 1 => {
            let at = 1 + random.below(list.len() - 1);
            list[at] = list[at - 1];
        }
        _ if !list.is_empty() => {
            let at = random.below(list.len());
            list[at] = some_index(random, n);
        }
        _ => list.push(some_index(random, n)),
    });
}

/// NaN or an infinity at some places of a factor, kept or not.
fn spoil_finite(random: &mut Random, list: &mut List<f64>) {
    list.edit(|list| {
        for _ in 0..list.len().min(1 + random.below(3)) {
            let at = random.below(list.len());
            list[at] = random.pick(&[f64::NAN, f64::INFINITY, f64::NEG_INFINITY]);
        }
    });
}

fn spoil_values(random: &mut Random, list: &mut List<f64>) {
    list.edit(|list| match random.below(3) {
        0 => spoil_length(random, list, Random::any_value),
        _ if !list.is_empty() => {
            let at = random.below(list.len());
            list[at] = random.pick(&[f64::NAN, f64::INFINITY, f64::NEG_INFINITY, 0.0, -0.0, -1.0, 5e-324, f64::MAX]);
            if random.chance(40) {
                list[at] = random.any_value();
            }
        }
        _ => list.push(random.any_value()),
    });
}

/// Numbers at and past the greatest size at some places of a factor, kept or not.
fn spoil_sizes(random: &mut Random, list: &mut List<i64>) {
    list.edit(|list| {
        for _ in 0..list.len().min(1 + random.below(3)) {
            let at = random.below(list.len());
            list[at] = random.pick(&LARGE_WHOLES);
        }
    });
}

fn spoil_wholes(random: &mut Random, list: &mut List<i64>) {
    list.edit(|list| match random.below(3) {
        0 => spoil_length(random, list, Random::any_whole),
        _ if !list.is_empty() => {
            let at = random.below(list.len());
            list[at] = random.pick(&[0, 1, -1, 2, -2]);
            if random.chance(40) {
                list[at] = random.any_whole();
            }
        }
        _ => list.push(random.any_whole()),
    });
}

fn some_size(random: &mut Random, n: usize) -> usize {
    match random.below(12) {
        0 => usize::MAX,
        1 => usize::MAX - random.below(4),
        2 => 1 << 32,
        3 => n.wrapping_add(1 << 32),
        4 => 1 << 63,
        5 => random.bits() as usize,
        6 => MOST_COLUMNS,
        7 => MOST_COLUMNS + 1,
        8 => 0,
        9 => n.wrapping_sub(1),
        _ => n.wrapping_add(1),
    }
}

/// In how many ways a subject is spoilt.
const FACTOR: usize = 5;
const REQUESTS: usize = 3;
const PAIR: usize = 2;
const OPERATOR: usize = 4;
const ENTRIES: usize = 4;
const RANGES: usize = 3;
const TRACK: usize = 2;

/// A way to spoil values.
type SpoilValues<V> = fn(&mut Random, &mut List<V>);

fn spoil_columns<V: Item>(
    factor: &mut FactorLists<V>,
    spoil: [SpoilValues<V>; 2],
    way: usize,
    n: usize,
    random: &mut Random,
) {
    match way {
        0 => factor.n = some_size(random, n),
        1 => spoil_words(random, &mut factor.starts, n),
        2 => spoil_words(random, &mut factor.rows, n),
        _ => spoil[way - 3](random, &mut factor.values),
    }
}

fn spoil_factor(factor: &mut FactorLists, way: usize, n: usize, random: &mut Random) {
    spoil_columns(factor, [spoil_values, spoil_finite], way, n, random);
}

fn spoil_whole_factor(factor: &mut FactorLists<i64>, way: usize, n: usize, random: &mut Random) {
    spoil_columns(factor, [spoil_wholes, spoil_sizes], way, n, random);
}

fn spoil_requests(requests: &mut RequestLists, way: usize, n: usize, random: &mut Random) {
    match way {
        0 => requests.dimension = some_size(random, n),
        1 => spoil_words(random, &mut requests.rows, n),
        _ => spoil_words(random, &mut requests.columns, n),
    }
}

fn spoil_pair(pair: &mut Pair, way: usize, n: usize, random: &mut Random) {
    match way {
        0 => pair.row = some_size(random, n),
        _ => pair.column = some_size(random, n),
    }
}

fn spoil_operator(operator: &mut OperatorLists, way: usize, n: usize, random: &mut Random) {
    match way {
        0 => operator.ncols = some_size(random, n),
        1 => spoil_words(random, &mut operator.row_starts, n),
        2 => spoil_words(random, &mut operator.columns, n),
        _ => spoil_values(random, &mut operator.weights),
    }
}

fn spoil_entries<V: Item>(
    entries: &mut EntryLists<V>,
    spoil: SpoilValues<V>,
    way: usize,
    n: usize,
    random: &mut Random,
) {
    match way {
        0 => spoil_words(random, &mut entries.starts, n),
        1 => spoil_words(random, &mut entries.rows, n),
        2 => spoil(random, &mut entries.values),
        _ => entries.rows.edit(|rows| {
            // in any order from one place to another: the ends of a run may stay
            let (a, b) = (random.below(rows.len() + 1), random.below(rows.len() + 1));
            random.shuffle(&mut rows[a.min(b)..a.max(b)]);
        }),
    }
}

fn spoil_ranges(ranges: &mut RangeLists, way: usize, n: usize, random: &mut Random) {
    match way {
        0 => spoil_words(random, &mut ranges.columns, n),
        1 => spoil_wholes(random, &mut ranges.lows),
        _ => spoil_wholes(random, &mut ranges.highs),
    }
}

fn spoil_track(track: &mut TrackLists, way: usize, n: usize, random: &mut Random) {
    match way {
        0 => spoil_words(random, &mut track.cells, n),
        _ => track.width = some_size(random, track.cells.len()),
    }
}

/// Spoils something of a call whose dimension was n.
fn spoil(call: &mut Call, n: usize, random: &mut Random) {
    match call.function {
        Function::EntriesWithLimit | Function::Entries => match random.below(FACTOR + REQUESTS) {
            way if way < FACTOR => spoil_factor(&mut call.factor, way, n, random),
            way => spoil_requests(&mut call.requests, way - FACTOR, n, random),
        },
        Function::LdlEntriesWithLimit | Function::LdlEntries => {
            match random.below(FACTOR + REQUESTS + LDL_FAULTS.len()) {
                way if way < FACTOR => spoil_factor(&mut call.factor, way, n, random),
                way if way < FACTOR + REQUESTS => spoil_requests(&mut call.requests, way - FACTOR, n, random),
                way => LDL_FAULTS[way - FACTOR - REQUESTS](call, random),
            }
        }
        Function::WholeEntriesWithLimit | Function::WholeEntries => match random.below(FACTOR + REQUESTS) {
            way if way < FACTOR => spoil_whole_factor(&mut call.whole_factor, way, n, random),
            way => spoil_requests(&mut call.requests, way - FACTOR, n, random),
        },
        Function::DependencyChain => match random.below(FACTOR + REQUESTS + PAIR) {
            way if way < FACTOR => spoil_factor(&mut call.factor, way, n, random),
            way if way < FACTOR + REQUESTS => spoil_requests(&mut call.requests, way - FACTOR, n, random),
            way => spoil_pair(&mut call.pair, way - FACTOR - REQUESTS, n, random),
        },
        Function::OriginalDiagWithLimit | Function::OriginalDiag => match random.below(FACTOR + 1) {
            way if way < FACTOR => spoil_factor(&mut call.factor, way, n, random),
            _ => spoil_words(random, &mut call.permutation.orig_to_perm, n),
        },
        Function::OperatorVariancesWithLimit | Function::OperatorVariances => match random.below(FACTOR + OPERATOR) {
            way if way < FACTOR => spoil_factor(&mut call.factor, way, n, random),
            way => spoil_operator(&mut call.operator, way - FACTOR, n, random),
        },
        Function::CovariancesWithLimit | Function::Covariances => match random.below(FACTOR + 2 * OPERATOR + 2) {
            way if way < FACTOR => spoil_factor(&mut call.factor, way, n, random),
            way if way < FACTOR + OPERATOR => spoil_operator(&mut call.operator, way - FACTOR, n, random),
            way if way < FACTOR + 2 * OPERATOR => spoil_operator(&mut call.other, way - FACTOR - OPERATOR, n, random),
            // a row of about the number of rows
            way if way == FACTOR + 2 * OPERATOR => {
                spoil_words(random, &mut call.row_pairs.a_rows, call.operator.row_starts.len())
            }
            _ => spoil_words(random, &mut call.row_pairs.b_rows, call.other.row_starts.len()),
        },
        Function::CheckFactor | Function::FactorPattern => {
            let way = random.below(FACTOR);
            spoil_factor(&mut call.factor, way, n, random)
        }
        Function::CheckWholeFactor => {
            let way = random.below(FACTOR);
            spoil_whole_factor(&mut call.whole_factor, way, n, random)
        }
        Function::OperatorPattern => {
            let way = random.below(OPERATOR);
            spoil_operator(&mut call.operator, way, n, random)
        }
        Function::Get | Function::GetCounted | Function::CheckResult | Function::GetWellFormed | Function::Diag => {
            match random.below(ENTRIES + PAIR) {
                way if way < ENTRIES => spoil_entries(&mut call.entries, spoil_values, way, n, random),
                way => spoil_pair(&mut call.pair, way - ENTRIES, n, random),
            }
        }
        Function::GetWhole => match random.below(ENTRIES + PAIR) {
            way if way < ENTRIES => spoil_entries(&mut call.whole_entries, spoil_wholes, way, n, random),
            way => spoil_pair(&mut call.pair, way - ENTRIES, n, random),
        },
        Function::VarianceBounds => match random.below(ENTRIES + RANGES + ROW_FAULTS.len()) {
            way if way < ENTRIES => spoil_entries(&mut call.whole_entries, spoil_wholes, way, n, random),
            way if way < ENTRIES + RANGES => spoil_ranges(&mut call.ranges, way - ENTRIES, n, random),
            way => ROW_FAULTS[way - ENTRIES - RANGES](call, random),
        },
        Function::TrackVariances => match random.below(ENTRIES + TRACK + TRACK_FAULTS.len()) {
            way if way < ENTRIES => spoil_entries(&mut call.whole_entries, spoil_wholes, way, n, random),
            way if way < ENTRIES + TRACK => spoil_track(&mut call.track, way - ENTRIES, n, random),
            way => TRACK_FAULTS[way - ENTRIES - TRACK](call, random),
        },
        Function::Validate | Function::Inverse => {
            let first = call.function == Function::Inverse || random.chance(50);
            let lists = &mut call.permutation;
            spoil_words(random, if first { &mut lists.orig_to_perm } else { &mut lists.perm_to_orig }, n)
        }
        Function::Reorder => match random.below(2) {
            0 => spoil_words(random, &mut call.permutation.orig_to_perm, n),
            _ => spoil_values(random, &mut call.values.input),
        },
        Function::ReorderMarked => match random.below(3) {
            0 => spoil_words(random, &mut call.permutation.orig_to_perm, n),
            1 => spoil_values(random, &mut call.values.input),
            _ => call.values.marks.edit(|marks| spoil_length(random, marks, |random| random.bits() as u8)),
        },
        Function::FloorZero | Function::Least => spoil_values(random, &mut call.values.input),
        Function::FloorMean => match random.below(2) {
            0 => spoil_values(random, &mut call.values.input),
            _ => call.values.scale = random.any_value(),
        },
        Function::ReadRequests => call.text.edit(|text| damage(text, random)),
        Function::WriteRequests => match random.below(REQUESTS + WRITTEN_FAULTS.len()) {
            way if way < REQUESTS => spoil_requests(&mut call.requests, way, n, random),
            way => WRITTEN_FAULTS[way - REQUESTS](&mut call.requests, random),
        },
    }
}

/// The length of a list lent for writing where so much is needed.
fn some_length(random: &mut Random, need: usize) -> usize {
    match random.below(50) {
        0 => 0,
        1 => random.below(need + 1),
        2 | 3 => need.saturating_sub(1),
        4..=12 => need + 1 + random.below(4),
        13..=15 => need + random.below(64),
        _ => need,
    }
}

/// A call of a function with no, one or several faults, lent lists of any length and contents.
pub fn random_call(function: Function, random: &mut Random) -> Call {
    let n = match random.below(LARGE) {
        0 => random.pick(&[MOST_COLUMNS / 2 + 1, MOST_COLUMNS - 1, MOST_COLUMNS, MOST_COLUMNS, MOST_COLUMNS + 1]),
        1..=59 => random.below(65),
        60..=99 => 40 + random.below(25),
        // a file is short whatever its size, and so is a result of one column
        100..=999 if function == Function::ReadRequests => random.below(MOST_COLUMNS + 2),
        100..=499 if function.reads_result() => random.below(600),
        // and so are requests that are written, but for their scratch
        100..=299 if function == Function::WriteRequests => random.below(MOST_COLUMNS + 2),
        _ => random.below(13),
    };
    let mut call = sound(function, n, random);
    let faults = random.pick(&[0, 0, 0, 1, 1, 1, 1, 2, 2, 12]);
    for _ in 0..faults {
        spoil(&mut call, n, random);
    }
    lend(&mut call, random, some_length);
    call
}
