//! Calls of the whole-number engine for `compare`: factors at random, and factors made so that numbers of one kind alone
//! pass 2^53, or that they reach it.

use crate::call::Call;
use crate::function::Function;
use crate::list::List;
use crate::random::Random;
use crate::rules::{requested, triangle, Factor};
use crate::sound::LARGE;
use crate::subjects::{FactorLists, RequestLists};
use crate::whole::{Kind, GREATEST};
use crate::whole_factors::{dense_block, grid_of_signs, lists, unit, Columns};
use std::cmp::Ordering::{Equal, Greater, Less};

type Pair = (usize, usize);

pub struct WholeCase {
    pub name: String,
    /// Without the lists lent for writing.
    pub call: Call,
    /// The kinds of numbers that pass 2^53, where it is known how the case was made.
    pub passed: Option<Vec<Kind>>,
}

/// A factor, requests, and what is known of their numbers.
struct Made {
    columns: Columns,
    requests: Vec<Pair>,
    passed: Option<Vec<Kind>>,
}

/// A sort of cases, and how many there are.
#[derive(Clone, Copy)]
struct Sort {
    name: &'static str,
    count: usize,
    make: fn(&mut Random) -> Made,
}

const SORTS: [Sort; 9] = [
    Sort { name: "random", count: 6_000, make: random_numbers },
    Sort { name: "kept", count: 1_500, make: kept_entry },
    Sort { name: "zeros", count: 200, make: large_entry_and_zeros },
    Sort { name: "product", count: 500, make: product },
    Sort { name: "sum", count: 500, make: sum },
    Sort { name: "diagonal-sum", count: 200, make: diagonal_sum },
    Sort { name: "entry", count: 300, make: squares },
    Sort { name: "greatest", count: 300, make: greatest },
    Sort { name: "diagonal", count: 500, make: diagonals },
];
/// Full blocks, from small numbers to those that pass.
const SCALED: usize = 60;
/// The sides of grids.
const GRIDS: [usize; 7] = [3, 5, 8, 16, 32, 45, 64];

/// The cases of a seed, one by one.
pub fn whole_cases(seed: u64) -> impl Iterator<Item = WholeCase> {
    let numbered = SORTS.into_iter().flat_map(|sort| (0..sort.count).map(move |k| (sort, k)));
    let small = numbered.map(move |(sort, k)| sort.case(seed, k));
    let scaled = (0..SCALED).map(move |k| {
        let mut random = Random::new(seed ^ (k as u64) << 16);
        let n = 1 + random.below(120);
        let scale = 1 << random.below(27);
        let factor = dense_block(n, scale, &mut random);
        let requests = some_requests(&mut random, n);
        WholeCase { name: format!("whole:dense-{k}"), call: called(factor, &requests, &mut random), passed: None }
    });
    let grids = GRIDS.into_iter().flat_map(|side| [false, true].map(|nested| (side, nested)));
    let grids = grids.map(move |(side, nested)| {
        let mut random = Random::new(seed ^ (side as u64) << 24);
        let (factor, _) = grid_of_signs(side, nested, &mut random);
        let all: Vec<Pair> = (0..side * side).map(|i| (i, i)).collect();
        let mut call = called(factor, &all, &mut random);
        (call.function, call.limit) = (Function::WholeEntriesWithLimit, usize::MAX);
        let order = if nested { "nested" } else { "natural" };
        WholeCase { name: format!("whole:{side}x{side}-{order}"), call, passed: Some(Vec::new()) }
    });
    small.chain(scaled).chain(grids)
}

impl Sort {
    /// Made from seed and name alone.
    fn case(self, seed: u64, k: usize) -> WholeCase {
        let name = format!("whole:{}-{k}", self.name);
        let mut random = Random::named(seed, &name);
        let Made { columns, requests, passed } = (self.make)(&mut random);
        let call = called(lists(&columns), &requests, &mut random);
        WholeCase { name, call, passed }
    }
}

/// Calls of the cases made for numbers about 2^53, so many of each sort.
pub fn calls_at_the_greatest(each: usize) -> impl Iterator<Item = Call> {
    let made = SORTS.into_iter().filter(|sort| !["random", "diagonal"].contains(&sort.name));
    made.flat_map(move |sort| (0..each).map(move |k| sort.case(0, k).call))
}

/// The call for these, with a limit about the set's size.
fn called(factor: FactorLists<i64>, requests: &[Pair], random: &mut Random) -> Call {
    // in either order, some of them twice
    let mut asked: Vec<Pair> = requests.iter().map(|&(r, c)| if random.chance(30) { (c, r) } else { (r, c) }).collect();
    if !asked.is_empty() && random.chance(20) {
        asked.push(random.pick(&asked));
    }
    random.shuffle(&mut asked);
    let mut call = Call {
        function: Function::WholeEntriesWithLimit,
        requests: RequestLists {
            dimension: factor.n,
            rows: List::made(asked.len(), |at| asked[at].0 as u32),
            columns: List::made(asked.len(), |at| asked[at].1 as u32),
        },
        whole_factor: factor,
        ..Call::default()
    };
    let size = requested(&call).closed(&Factor::kept(&call.whole_factor)).count();
    match random.below(16) {
        0 => call.function = Function::WholeEntries,
        1 => call.limit = 0,
        2 => call.limit = size.saturating_sub(1),
        3 => call.limit = random.below(size + 1),
        4..=7 => call.limit = size,
        8 => call.limit = size + 1,
        9 => call.limit = triangle(call.whole_factor.n),
        // past 32 bits, in which less than the size is left of it
        10 => call.limit = (1 << 32) + size.saturating_sub(1),
        _ => call.limit = usize::MAX,
    }
    call
}

fn sign(random: &mut Random) -> i64 {
    random.pick(&[1, -1])
}

/// A number past 2^53.
fn past(random: &mut Random) -> i64 {
    match random.below(4) {
        0 => random.pick(&LARGE[2..]),
        1 => (GREATEST + 1 + random.below(9) as i64) * sign(random),
        _ => loop {
            let x = random.any_whole();
            if x.unsigned_abs() > GREATEST as u64 {
                return x;
            }
        },
    }
}

/// Pairs of n, perhaps none.
fn some_requests(random: &mut Random, n: usize) -> Vec<Pair> {
    let count = random.pick(&[0, 1, 1, 1, 2, 3, n]);
    (0..count).map(|_| (random.below(n), random.below(n))).collect()
}

/// Columns of numbers up to `most` in size, some of them 0, and above the diagonal numbers past 2^53.
fn some_columns(random: &mut Random, n: usize, most: i64) -> Columns {
    let below = random.pick(&[0.5, 1.0, 1.5, 2.5, 6.0]) / n as f64;
    let above = random.pick(&[0, 0, 10]);
    let mut columns = unit(n);
    for (c, column) in columns.iter_mut().enumerate() {
        column.clear();
        for r in 0..n {
            match r.cmp(&c) {
                Less if random.chance(above) => column.push((r, past(random))),
                Equal => column.push((r, 1)),
                Greater if random.unit() < below => column.push((r, random.whole(most))),
                _ => {}
            }
        }
    }
    columns
}

fn random_numbers(random: &mut Random) -> Made {
    let most_columns = random.pick(&[6, 12, 24, 48]);
    let n = 1 + random.below(most_columns);
    let most = random.pick(&[1, 1, 2, 3, 9, 100, 1 << 20, 1 << 26, 1 << 27]);
    let columns = some_columns(random, n, most);
    Made { columns, requests: some_requests(random, n), passed: None }
}

/// A kept entry of a column that the set does not reach, at 2^53 or past it.
fn kept_entry(random: &mut Random) -> Made {
    let n = 2 + random.below(10);
    let first = 1 + random.below(n - 1);
    let mut columns = some_columns(random, n, 1);
    let count = random.pick(&[0, 1, 1, 2]);
    let requests = (0..count).map(|_| (first + random.below(n - first), first + random.below(n - first))).collect();
    let accepted = random.chance(30);
    let value = if accepted { GREATEST * sign(random) } else { past(random) };
    let column = random.below(first);
    let row = column + 1 + random.below(n - column - 1);
    columns[column].retain(|e| e.0 != row);
    columns[column].push((row, value));
    columns[column].sort_unstable();
    // eleven columns of numbers up to 1 keep the others small
    Made { columns, requests, passed: Some(if accepted { Vec::new() } else { vec![Kind::KeptEntry] }) }
}

/// A kept entry past 2^53 that is multiplied with 0 alone.
fn large_entry_and_zeros(random: &mut Random) -> Made {
    let mut columns = unit(4);
    columns[0].push((1, past(random)));
    columns[1].push((2, random.whole(1000)));
    spread(random, columns, &[(3, 0)], Some(vec![Kind::KeptEntry]))
}

/// A factor of few columns among others, which the set does not reach.
fn spread(random: &mut Random, few: Columns, requests: &[Pair], passed: Option<Vec<Kind>>) -> Made {
    let n = few.len() + random.below(6);
    let mut places: Vec<usize> = (0..n).collect();
    random.shuffle(&mut places);
    places.truncate(few.len());
    places.sort_unstable();
    let mut columns = some_columns(random, n, 1000);
    for (column, &place) in few.iter().zip(&places) {
        columns[place].retain(|e| e.0 < place);
        columns[place].extend(column.iter().map(|&(row, value)| (places[row], value)));
    }
    let requests = requests.iter().map(|&(r, c)| (places[r], places[c])).collect();
    Made { columns, requests, passed }
}

/// Column 0 has the other columns but the last as descendants, and each of these the last: entry (last, k) is -w(k) for
/// w(k) in the last row, and the sum of (last, 0) adds the given products in turn.
fn products(random: &mut Random, products: &[i64], passed: Option<Vec<Kind>>) -> Made {
    let last = products.len() + 1;
    let mut columns = unit(last + 1);
    for (k, &product) in (1..).zip(products) {
        // l(k)·(-w(k))
        let small: i64 = random.pick(&[1, 1, 2, 3, 7, 9]);
        let l = if product % small == 0 { small } else { 1 } * sign(random);
        columns[0].push((k, l));
        columns[k].push((last, -product / l));
    }
    spread(random, columns, &[(last, 0)], passed)
}

/// A second product alone past 2^53: the first leaves the sums within it.
fn product(random: &mut Random) -> Made {
    let factor = 2 + random.below(1000) as i64;
    let other = GREATEST / factor + 1;
    let over = factor * other - GREATEST;
    let first = over + random.below(1000) as i64;
    let turned = sign(random);
    let mut columns = unit(4);
    columns[0].extend([(1, 1), (2, factor)]);
    columns[1].push((3, turned * first));
    columns[2].push((3, -turned * other));
    spread(random, columns, &[(3, 0)], Some(vec![Kind::Product]))
}

/// A running sum alone past 2^53, which then returns; or one that reaches it.
fn sum(random: &mut Random) -> Made {
    let few = |random: &mut Random| random.below(50) as i64;
    let (x, z, turned) = (few(random), few(random), sign(random));
    let over = random.pick(&[0, 1, 1, 2, 100]);
    let parts = [GREATEST - x, x + over, -over - z].map(|part| turned * part);
    // a part of 0 is no entry
    let parts: Vec<i64> = parts.into_iter().filter(|&part| part != 0).collect();
    products(random, &parts, Some(if over > 0 { vec![Kind::Sum] } else { Vec::new() }))
}

/// The running sum of a diagonal alone past 2^53. Columns 1 to 3 have the inverse 1; a 1; b 0 1 of their block, and column 0
/// has three ones: its sum adds -(a² + a + b² + b + 1), -(a + 1) and -(b + 1), where b is below 0.
fn diagonal_sum(random: &mut Random) -> Made {
    loop {
        let a = 94_906_264 - random.below(3_000_000) as i64;
        let gap = GREATEST - (a + 1) * (a + 1);
        // the least size of b with which two terms pass
        let mut size = (gap as f64).sqrt() as i64;
        while size * size - size < gap {
            size += 1;
        }
        if size * size - size + 1 > gap + size - 2 {
            continue;
        }
        let b = -size;
        let mut columns = unit(4);
        columns[0].extend([(1, 1), (2, 1), (3, 1)]);
        columns[1].extend([(2, -a), (3, -b)]);
        return spread(random, columns, &[(0, 0)], Some(vec![Kind::DiagonalSum]));
    }
}

/// Five numbers, one of them odd, whose squares sum to a number of about 2^53. Four do not: of a multiple of 8 all four are
/// even, so that 2^53 is the sum of 2^52 and 2^52 alone.
fn five_squares(random: &mut Random, sum: i64) -> [i64; 5] {
    let root = |x: i64| (x as f64).sqrt() as i64;
    loop {
        let odd = 2 * random.below(1_000_000) as i64 + 1;
        let a = root(sum) - 100_000 - random.below(1_000_000) as i64;
        let rest = sum - odd * odd - a * a;
        let b = root(rest);
        let rest = rest - b * b;
        for c in 0..=root(rest) {
            let d = root(rest - c * c);
            if c * c + d * d == rest {
                return [odd, a, b, c, d];
            }
        }
    }
}

/// Squares that sum to 2^53 - 1, 2^53 or more: the diagonal of the column is 1 more. Its sum alone reaches 2^53 in the second
/// case, so that the entry alone passes.
fn squares(random: &mut Random) -> Made {
    let more = random.pick(&[-1, -1, 0, 0, 0, 1]);
    let mut roots = five_squares(random, GREATEST + more);
    random.shuffle(&mut roots);
    let mut columns = unit(6);
    columns[0].extend((1..).zip(roots).map(|(k, root)| (k, root * sign(random))));
    let passed = match more {
        -1 => Vec::new(),
        0 => vec![Kind::Entry],
        _ => vec![Kind::DiagonalSum, Kind::Entry],
    };
    spread(random, columns, &[(0, 0)], Some(passed))
}

/// Numbers of 2^53 in size: a kept entry and the entry that it makes, or a product.
fn greatest(random: &mut Random) -> Made {
    let turned = sign(random);
    if random.chance(50) {
        let mut columns = unit(2);
        columns[0].push((1, turned * GREATEST));
        let request = random.pick(&[(1, 0), (1, 1)]);
        return spread(random, columns, &[request], Some(Vec::new()));
    }
    let power = random.below(54);
    let mut columns = unit(3);
    columns[0].push((1, turned << power));
    columns[1].push((2, sign(random) * (GREATEST >> power)));
    spread(random, columns, &[(2, 0)], Some(Vec::new()))
}

/// Diagonals that are missing, dropped or other than 1.
fn diagonals(random: &mut Random) -> Made {
    let Made { mut columns, requests, .. } = random_numbers(random);
    for _ in 0..1 + random.below(2) {
        let column = random.below(columns.len());
        if random.chance(40) {
            columns[column].retain(|e| e.0 != column);
        } else {
            let value = random.pick(&[0, 2, -1, GREATEST, i64::MIN]);
            columns[column].iter_mut().filter(|e| e.0 == column).for_each(|e| e.1 = value);
        }
    }
    Made { columns, requests, passed: None }
}
