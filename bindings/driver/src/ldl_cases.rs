//! Calls of selected entries with pivots for `compare`: factors at random, whole numbers with pivots of 1, grids; calls with
//! one thing spoilt, and with several.

use crate::call::Call;
use crate::compare::some_more;
use crate::faults::Fault;
use crate::function::Function;
use crate::ldl_factors::{any_pivot, grid_with_pivots, moderate_pivot, put_some_diagonals, Columns, DIAGONALS};
use crate::ldl_faults::{LDL_FAULTS, PIVOT_FAULTS};
use crate::lend::lend;
use crate::list::List;
use crate::random::Random;
use crate::rules::{requested, triangle, Factor};
use crate::subjects::{FactorLists, RequestLists};
use crate::whole_factors::lists;

pub struct LdlCase {
    pub name: String,
    pub call: Call,
}

/// A sort of cases, how many there are, and from how many to how many of these faults each has.
#[derive(Clone, Copy)]
struct Sort {
    name: &'static str,
    count: usize,
    make: fn(&mut Random) -> Call,
    faults: &'static [Fault],
    at_once: [usize; 2],
}

const NONE: [usize; 2] = [0, 0];

const SORTS: [Sort; 7] = [
    Sort { name: "moderate", count: 12_000, make: moderate, faults: &[], at_once: NONE },
    Sort { name: "any", count: 12_000, make: any_sizes, faults: &[], at_once: NONE },
    Sort { name: "units", count: 4_000, make: units, faults: &[], at_once: NONE },
    Sort { name: "wholes", count: 4_000, make: wholes, faults: &[], at_once: NONE },
    Sort { name: "pivots", count: 4_000, make: moderate, faults: &PIVOT_FAULTS, at_once: [1, 2] },
    Sort { name: "one", count: 6_000, make: moderate, faults: &LDL_FAULTS, at_once: [1, 1] },
    Sort { name: "several", count: 12_000, make: any_sizes, faults: &LDL_FAULTS, at_once: [2, 4] },
];
/// What the names of grids begin with.
pub const GRID: &str = "ldl:grid-";
/// The sides of grids.
const GRIDS: [usize; 7] = [2, 3, 5, 8, 16, 32, 64];

/// The cases of a seed, one by one.
pub fn ldl_cases(seed: u64) -> impl Iterator<Item = LdlCase> {
    let small = SORTS.into_iter().flat_map(move |sort| (0..sort.count).map(move |k| sort.case(seed, k)));
    let orders = GRIDS.into_iter().flat_map(|side| [false, true].map(|nested| (side, nested)));
    let grids = orders.flat_map(|(side, nested)| DIAGONALS.map(|given| (side, nested, given)));
    let grids = grids.map(move |(side, nested, given)| {
        let name = format!("{GRID}{side}x{side}-{}-{given:?}", if nested { "nested" } else { "natural" });
        let mut random = Random::named(seed, &name);
        let (factor, pivots, _) = grid_with_pivots(side, nested, given);
        let all: Vec<(usize, usize)> = (0..side * side).map(|i| (i, i)).collect();
        let asked = if random.chance(50) { all } else { some_requests(&mut random, side * side) };
        let mut call = called(factor, pivots, &asked, &mut random);
        if random.chance(50) {
            call.limit = usize::MAX;
        }
        lend(&mut call, &mut random, some_more);
        LdlCase { name, call }
    });
    small.chain(grids)
}

impl Sort {
    /// Made from seed and name alone.
    fn case(self, seed: u64, k: usize) -> LdlCase {
        let name = format!("ldl:{}-{k}", self.name);
        let mut random = Random::named(seed, &name);
        let mut call = (self.make)(&mut random);
        let [least, most] = self.at_once;
        for _ in 0..least + random.below(most - least + 1) {
            random.pick(self.faults)(&mut call, &mut random);
        }
        if random.chance(5) {
            lend(&mut call, &mut random, |random, need| need.saturating_sub(1 + random.below(2)));
        } else {
            lend(&mut call, &mut random, some_more);
        }
        LdlCase { name, call }
    }
}

/// Pairs of n, perhaps none.
fn some_requests(random: &mut Random, n: usize) -> Vec<(usize, usize)> {
    let count = if n == 0 { 0 } else { random.pick(&[0, 1, 1, 2, 3, n, 2 * n]) };
    (0..count).map(|_| (random.below(n), random.below(n))).collect()
}

/// The call for these, with a limit about the set's size, or with the default.
fn called(factor: FactorLists, pivots: List<f64>, requests: &[(usize, usize)], random: &mut Random) -> Call {
    let mut call = Call {
        function: Function::LdlEntriesWithLimit,
        requests: RequestLists {
            dimension: factor.n,
            rows: List::made(requests.len(), |at| requests[at].0 as u32),
            columns: List::made(requests.len(), |at| requests[at].1 as u32),
        },
        factor,
        pivots,
        ..Call::default()
    };
    let size = requested(&call).closed(&Factor::kept(&call.factor)).count();
    match random.below(12) {
        0..=2 => call.function = Function::LdlEntries,
        3 => call.limit = size.saturating_sub(1),
        4 => call.limit = random.below(size + 1),
        5 | 6 => call.limit = size,
        7 => call.limit = triangle(call.factor.n),
        8 => call.limit = (1 << 32) + random.below(size + 1),
        _ => call.limit = usize::MAX,
    }
    call
}

/// Columns of such values at some places below the diagonal, and above it any, NaN and infinities among them.
fn some_columns(random: &mut Random, n: usize, value: impl Fn(&mut Random) -> f64) -> Columns {
    let below = random.pick(&[0.5, 1.0, 1.5, 2.5, 6.0]) / n.max(1) as f64;
    let above = random.pick(&[0, 0, 10]);
    let mut columns = vec![Vec::new(); n];
    for (c, column) in columns.iter_mut().enumerate() {
        for r in 0..n {
            if r < c && random.chance(above) {
                column.push((r, random.pick(&[1.0, f64::NAN, f64::INFINITY, f64::MAX])));
            } else if r > c && random.unit() < below {
                // one in twenty is dropped
                column.push((r, if random.chance(5) { random.pick(&[0.0, -0.0]) } else { value(random) }));
            }
        }
    }
    columns
}

fn some_dimension(random: &mut Random) -> usize {
    let most = random.pick(&[4, 8, 16, 32, 48]);
    random.below(most + 1)
}

/// A call for a factor of such values and pivots, its diagonals given in any way.
fn made(random: &mut Random, value: impl Fn(&mut Random) -> f64, pivot: impl Fn(&mut Random) -> f64) -> Call {
    let n = some_dimension(random);
    let mut columns = some_columns(random, n, value);
    put_some_diagonals(&mut columns, random);
    let pivots = List::made(n, |_| pivot(random));
    let requests = some_requests(random, n);
    called(lists(&columns), pivots, &requests, random)
}

/// Values to 2 in size and pivots from 2^-most to 2^most.
fn moderate(random: &mut Random) -> Call {
    let most = random.pick(&[0, 1, 4, 30, 300]);
    made(random, |random| 4.0 * random.unit() - 2.0, |random| moderate_pivot(random, most))
}

/// Finite values of any bits among others, and pivots of any size.
fn any_sizes(random: &mut Random) -> Call {
    let any = |random: &mut Random| loop {
        let value = random.any_value();
        if value.is_finite() {
            return value;
        }
    };
    made(random, |random| if random.chance(20) { any(random) } else { 4.0 * random.unit() - 2.0 }, any_pivot)
}

/// Pivots of 1, and values of any fractions.
fn units(random: &mut Random) -> Call {
    made(random, |random| 4.0 * random.unit() - 2.0, |_| 1.0)
}

/// Pivots of 1, and whole numbers.
fn wholes(random: &mut Random) -> Call {
    let most = random.pick(&[1, 2, 9, 1 << 20]);
    made(random, |random| random.whole(most) as f64, |_| 1.0)
}
