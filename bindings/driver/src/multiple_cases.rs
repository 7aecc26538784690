//! Calls of selected entries for the exact case beyond unit diagonals: factors of whole multiples of powers of two, some
//! within the hypotheses, some just outside.

use crate::call::Call;
use crate::function::Function;
use crate::list::List;
use crate::random::Random;
use crate::rules::{requested, triangle, Factor};
use crate::subjects::{FactorLists, RequestLists};
use crate::whole::GREATEST;
use crate::whole_cases::calls_at_the_greatest;
use crate::whole_factors::as_floats;
use redstartgilt::{ExactFault, ExactStep};

type Pair = (usize, usize);
type Columns = Vec<Vec<(usize, f64)>>;

/// What is known of how a case was made.
#[derive(Clone, Copy, PartialEq)]
pub enum Known {
    Covered,
    Not(ExactStep, ExactFault),
    Nothing,
}

pub struct MultipleCase {
    pub name: String,
    /// Without the lists lent for writing.
    pub call: Call,
    /// The scale asked for; the least that covers the call where there is none.
    pub scale: Option<u32>,
    pub known: Known,
}

/// A factor, requests, and a scale.
struct Made {
    columns: Columns,
    requests: Vec<Pair>,
    scale: Option<u32>,
    known: Known,
}

/// A sort of cases, and how many there are.
#[derive(Clone, Copy)]
struct Sort {
    name: &'static str,
    count: usize,
    make: fn(&mut Random) -> Made,
}

const SORTS: [Sort; 8] = [
    Sort { name: "powers", count: 5_000, make: powers_of_two },
    Sort { name: "rows", count: 5_000, make: scaled_rows },
    Sort { name: "any", count: 2_000, make: any_diagonals },
    Sort { name: "one", count: 1_500, make: one_column },
    Sort { name: "sums", count: 3_000, make: sums },
    Sort { name: "products", count: 1_000, make: product },
    Sort { name: "squares", count: 1_000, make: square },
    Sort { name: "large", count: 500, make: large_entries },
];
/// So many calls of each sort of whole numbers about 2^53.
const WHOLE: usize = 60;

/// The cases of a seed, one by one.
pub fn multiple_cases(seed: u64) -> impl Iterator<Item = MultipleCase> {
    let made = SORTS.into_iter().flat_map(move |sort| {
        (0..sort.count).map(move |k| {
            let name = format!("multiples:{}-{k}", sort.name);
            let mut random = Random::named(seed, &name);
            let Made { columns, requests, scale, known } = (sort.make)(&mut random);
            MultipleCase { name, call: called(lists(&columns), &requests, &mut random), scale, known }
        })
    });
    let wholes = calls_at_the_greatest(WHOLE).enumerate().map(move |(k, whole)| {
        let call = Call {
            function: Function::EntriesWithLimit,
            factor: as_floats(&whole.whole_factor),
            requests: whole.requests,
            limit: whole.limit,
            ..Call::default()
        };
        MultipleCase { name: format!("multiples:whole-{k}"), call, scale: Some(0), known: Known::Nothing }
    });
    made.chain(wholes)
}

fn lists(columns: &Columns) -> FactorLists {
    let entries: Vec<(usize, f64)> = columns.iter().flatten().copied().collect();
    let mut starts = vec![0];
    for column in columns {
        starts.push(starts[starts.len() - 1] + column.len() as u32);
    }
    FactorLists {
        n: columns.len(),
        starts: List::new(&starts),
        rows: List::made(entries.len(), |p| entries[p].0 as u32),
        values: List::made(entries.len(), |p| entries[p].1),
    }
}

/// The call for these, with a limit about the set's size.
fn called(factor: FactorLists, requests: &[Pair], random: &mut Random) -> Call {
    let mut asked: Vec<Pair> = requests.iter().map(|&(r, c)| if random.chance(30) { (c, r) } else { (r, c) }).collect();
    random.shuffle(&mut asked);
    let mut call = Call {
        function: Function::EntriesWithLimit,
        requests: RequestLists {
            dimension: factor.n,
            rows: List::made(asked.len(), |at| asked[at].0 as u32),
            columns: List::made(asked.len(), |at| asked[at].1 as u32),
        },
        factor,
        ..Call::default()
    };
    let size = requested(&call).closed(&Factor::kept(&call.factor)).count();
    match random.below(16) {
        0 => call.function = Function::Entries,
        1 => call.limit = size.saturating_sub(1),
        2 => call.limit = random.below(size + 1),
        3..=7 => call.limit = size,
        8 => call.limit = triangle(call.factor.n),
        _ => call.limit = usize::MAX,
    }
    call
}

fn power(exponent: i32) -> f64 {
    2f64.powi(exponent)
}

fn sign(random: &mut Random) -> i64 {
    random.pick(&[1, -1])
}

fn between(random: &mut Random, low: i32, high: i32) -> i32 {
    low + random.below((high - low + 1) as usize) as i32
}

/// Pairs of n, perhaps none.
fn some_requests(random: &mut Random, n: usize) -> Vec<Pair> {
    let count = random.pick(&[0, 1, 1, 2, 3, n]);
    (0..count).map(|_| (random.below(n), random.below(n))).collect()
}

/// The least scale mostly, else any.
fn some_scale(random: &mut Random) -> Option<u32> {
    (!random.chance(75)).then(|| random.below(54) as u32)
}

/// Columns with these diagonals, with a chance of an entry in each row below, a few of them dropped, and dropped entries above.
fn columns_of(random: &mut Random, diagonals: &[f64], entry: impl Fn(&mut Random, usize) -> f64) -> Columns {
    let n = diagonals.len();
    let percent = random.pick(&[10, 25, 50, 100]);
    let above = random.pick(&[0, 0, 10]);
    let column = |c: usize| {
        let mut column = Vec::new();
        for (r, &diagonal) in diagonals.iter().enumerate() {
            if r < c && random.chance(above) {
                column.push((r, random.any_value()));
            } else if r == c {
                column.push((r, diagonal));
            } else if r > c && random.chance(percent) {
                column.push((r, if random.chance(3) { 0.0 } else { entry(random, r) }));
            }
        }
        column
    };
    (0..n).map(column).collect()
}

/// Diagonals that are powers of two, and other entries that are small multiples of one.
fn powers_of_two(random: &mut Random) -> Made {
    let n = 1 + random.below(8);
    let (low, high) = random.pick(&[(0, 1), (0, 2), (0, 4), (-1, 1), (-2, 2), (-8, 8)]);
    let (fine, most) = (between(random, -3, 6), random.pick(&[1, 1, 2, 3, 9, 1000]));
    let diagonals: Vec<f64> = (0..n).map(|_| power(between(random, low, high))).collect();
    let columns = columns_of(random, &diagonals, |random, _| random.whole(most) as f64 * power(-fine));
    let requests = some_requests(random, n);
    Made { columns, requests, scale: some_scale(random), known: Known::Nothing }
}

/// A factor of whole numbers with diagonals of 1, each row times a power of two: entry (i,j) of the inverse is then divided
/// by those of rows i and j.
fn scaled_rows(random: &mut Random) -> Made {
    let n = 1 + random.below(16);
    let most = random.pick(&[1, 1, 2, 3]);
    let high = random.pick(&[1, 2, 6, 12]);
    let low = if random.chance(30) { -high / 2 } else { 0 };
    let rows: Vec<f64> = (0..n).map(|_| power(between(random, low, high))).collect();
    let columns = columns_of(random, &rows, |random, row| random.whole(most) as f64 * rows[row]);
    let requests = some_requests(random, n);
    Made { columns, requests, scale: some_scale(random), known: Known::Nothing }
}

/// Diagonals of all kinds, and entries that most of them divide.
fn any_diagonals(random: &mut Random) -> Made {
    let n = 1 + random.below(5);
    let diagonals: Vec<f64> = (0..n).map(|_| random.pick(&[1.0, 1.0, 2.0, 3.0, 6.0, 0.5, 1.5, 0.25, 5.0])).collect();
    let columns = columns_of(random, &diagonals, |random, _| random.pick(&[6.0, -6.0, 3.0, 1.5, 12.0, 30.0, 0.75]));
    let requests = some_requests(random, n);
    Made { columns, requests, scale: some_scale(random), known: Known::Nothing }
}

/// One column: d·d and 1 / (d·d) at any scale, where the bound is reached from both sides.
fn one_column(random: &mut Random) -> Made {
    let (exponent, scale) = (between(random, -30, 30), random.below(54) as i32);
    let odd = random.pick(&[1, 1, 1, 1, 3]);
    let requests = if random.chance(90) { vec![(0, 0)] } else { Vec::new() };
    let bounds = [exponent, -exponent].iter().all(|e| 2 * e + scale >= 0 && 2 * e + scale <= 53);
    let known = if requests.is_empty() || odd > 1 {
        Known::Nothing
    } else if exponent + scale < 0 {
        Known::Not(ExactStep::FactorEntry, ExactFault::NoMultiple)
    } else if bounds {
        Known::Covered
    } else {
        Known::Nothing
    };
    let columns = vec![vec![(0, odd as f64 * power(exponent))]];
    Made { columns, requests, scale: Some(scale as u32), known }
}

/// Column 0 has the others but the last as descendants, each of these the last: the sum of (last, 0) adds products of these
/// multipliers in turn, and its quotient is by d. No diagonal pair but the last is in the set, so that the other diagonals
/// may be anything that divides.
fn products(random: &mut Random, multipliers: &[i64], scale: u32, d: f64, known: Known) -> Made {
    let last = multipliers.len() + 1;
    let unit = power(-(scale as i32));
    let mut columns: Columns = (0..=last).map(|c| vec![(c, 1.0)]).collect();
    columns[0][0].1 = d;
    for (k, &multiplier) in (1..).zip(multipliers) {
        let l: i64 = random.pick(&[1, 1, 2, 3, 4, 9]);
        let l = if multiplier % l == 0 { l } else { 1 } * sign(random);
        columns[0].push((k, l as f64));
        // entry (last, k) is multiplier / l
        let divisor = random.pick(&[1.0, 2.0, 3.0, 5.0]);
        let value = -(multiplier / l) as f64 * unit;
        let whole = value * divisor;
        // where the product is exact
        let divisor = if whole / divisor == value && whole.abs() <= GREATEST as f64 * unit { divisor } else { 1.0 };
        columns[k][0].1 = divisor;
        columns[k].push((last, value * divisor));
    }
    Made { columns, requests: vec![(last, 0)], scale: Some(scale), known }
}

/// A running sum at 2^53 or just past it; or a quotient that is a multiple or not.
fn sums(random: &mut Random) -> Made {
    let scale = random.below(54) as u32;
    let turned = sign(random);
    if random.chance(40) {
        // the sum 6·m or 6·m + 1 by 3: no number but the quotient fails
        let (m, more) = (1 + random.below(1 << 40) as i64, random.pick(&[0, 0, 1]));
        let known = if more == 0 { Known::Covered } else { Known::Not(ExactStep::Quotient, ExactFault::NoMultiple) };
        // 3 must be a whole multiple, and the last entry's 1 too, with a multiplier within 2^53
        return products(random, &[turned * 6 * m, turned * more].map(nonzero)[..1 + more as usize], scale, 3.0, known);
    }
    let few = |random: &mut Random| 1 + random.below(50) as i64;
    let (x, z) = (few(random), few(random));
    let over = random.pick(&[0, 1, 1, 2, 100]);
    let parts = [GREATEST - x, x + over, -over - z].map(|part| turned * part);
    let known = if over > 0 { Known::Not(ExactStep::Sum(2), ExactFault::MultiplierTooLarge) } else { Known::Covered };
    products(random, &parts, scale, 1.0, known)
}

fn nonzero(number: i64) -> i64 {
    if number == 0 {
        1
    } else {
        number
    }
}

/// A product at 2^53, or just past it while its sum is within; or one that is no multiple.
fn product(random: &mut Random) -> Made {
    let scale = random.below(54) as u32;
    let turned = sign(random);
    let unit = power(-(scale as i32));
    let mut columns: Columns = (0..4).map(|c| vec![(c, 1.0)]).collect();
    columns[1].push((3, unit * 100.0 * turned as f64));
    columns[0].push((1, 1.0));
    let (l, w, known) = match random.below(3) {
        // 2^53 + 1 is a multiple of 3
        0 => (3.0, (GREATEST + 1) / 3, Known::Not(ExactStep::Product(2), ExactFault::MultiplierTooLarge)),
        1 => (4.0, GREATEST / 4, Known::Covered),
        _ if scale > 0 => {
            (1.5, 2 * random.below(1 << 40) as i64 + 1, Known::Not(ExactStep::Product(2), ExactFault::NoMultiple))
        }
        _ => (2.0, 1, Known::Covered),
    };
    columns[0].push((2, l));
    // entry (3,1) is -100·turned, so this product has the other sign
    columns[2].push((3, -(turned * w) as f64 * unit));
    Made { columns, requests: vec![(3, 0)], scale: Some(scale), known }
}

/// The entry 1 + l² of a diagonal at 2^53 or past it, where l² is within.
fn square(random: &mut Random) -> Made {
    let half = random.below(27) as u32;
    let one = 1i64 << (2 * half);
    let mut root = ((GREATEST - one) as f64).sqrt() as i64;
    while root * root > GREATEST - one {
        root -= 1;
    }
    let mut known = Known::Covered;
    if random.chance(60) {
        root += 1;
        known = match root * root > GREATEST {
            true => Known::Nothing,
            false => Known::Not(ExactStep::Entry, ExactFault::MultiplierTooLarge),
        };
    }
    let l = (sign(random) * root) as f64 * power(-(half as i32));
    let columns = vec![vec![(0, 1.0), (1, l)], vec![(1, 1.0)]];
    // -l is a multiplier of 2^half times the root
    if root << half > GREATEST {
        known = Known::Nothing;
    }
    Made { columns, requests: vec![(0, 0)], scale: Some(2 * half), known }
}

/// A kept entry of any size, which meets zeros, or a column that the set does not reach; or is finer than every scale.
fn large_entries(random: &mut Random) -> Made {
    let exponent = random.pick(&[54, 100, 127, 128, 500, 1000, -53, -54, -1000, -1074]);
    let value = (1 + 2 * random.below(2)) as f64 * power(exponent / 2) * power(exponent - exponent / 2);
    let scale = random.below(54) as u32;
    let fine = exponent + (scale as i32) < 0;
    let mut columns: Columns = (0..4).map(|c| vec![(c, power(between(random, 0, 2)))]).collect();
    let known = |covered| if fine { Known::Not(ExactStep::FactorEntry, ExactFault::NoMultiple) } else { covered };
    let (requests, known) = match random.below(3) {
        // (3,1) is 0
        0 => {
            columns[0].push((1, value));
            columns[1].push((2, 1.0));
            columns[3][0].1 = 1.0;
            (vec![(3, 0)], known(Known::Covered))
        }
        1 => {
            columns[0].push((2, value));
            columns[3][0].1 = 1.0;
            (vec![(3, 3)], known(Known::Covered))
        }
        // a diagonal, below which all is 0
        _ => {
            columns[0][0].1 = value;
            columns[0].push((1, 1.0));
            columns[3][0].1 = 1.0;
            (vec![(3, 0)], known(Known::Covered))
        }
    };
    Made { columns, requests, scale: Some(scale), known }
}
