//! The exact case beyond unit diagonals in `compare`: the crate's check of its hypotheses beside the driver's own; and, of
//! calls that meet them, every entry beside its multiplier and beside the inverse.

use crate::call::Call;
use crate::compare::{compare_call, some_more, Tally};
use crate::function::Function;
use crate::lend::lend;
use crate::list::List;
use crate::multiple_cases::{multiple_cases, Known, MultipleCase};
use crate::multiples::{Fault, WholeMultiple};
use crate::random::Random;
use crate::rules::{self, limit, place, requested, Factor, Pairs};
use crate::subjects::{EntryLists, OperatorLists, Pair, PermutationLists, RowPairLists};
use crate::text::Block;
use redstartgilt::{
    exact_multipliers, least_exact_multipliers, CholeskyFactor, ExactFault, ExactStep, NotExact,
    SparseSymmetricPattern, MAX_SCALE,
};
use std::collections::BTreeMap;

/// Of one case in so many the least scale is looked for among all.
const EVERY_SCALE: usize = 8;
/// Of one case in so many the other calls that fill result lists are made with the same factor.
const EVERY_CALL: usize = 4;
/// At least one case in so many of a seed must meet the hypotheses with a scale above 0.
const MANY: usize = 3;
/// What must be the first number that is not covered, in some case.
const FAULTS: [(&str, ExactFault); 11] = [
    ("FactorEntry", ExactFault::NoMultiple),
    ("Product", ExactFault::NoMultiple),
    ("Product", ExactFault::MultiplierTooLarge),
    ("Sum", ExactFault::MultiplierTooLarge),
    ("Square", ExactFault::NoMultiple),
    ("Square", ExactFault::MultiplierTooLarge),
    ("Reciprocal", ExactFault::NoMultiple),
    ("Reciprocal", ExactFault::MultiplierTooLarge),
    ("Quotient", ExactFault::NoMultiple),
    ("Quotient", ExactFault::MultiplierTooLarge),
    ("Entry", ExactFault::MultiplierTooLarge),
];

/// What the cases of the set `multiples` were.
#[derive(Default)]
pub struct Exactness {
    cases: usize,
    covered: usize,
    above_zero: usize,
    complete: usize,
    entries: usize,
    outputs: usize,
    scales: BTreeMap<u32, usize>,
    least: usize,
    none: usize,
    faults: BTreeMap<String, usize>,
}

impl Exactness {
    pub fn report(&self) {
        if self.cases == 0 {
            return;
        }
        println!("\nthe exact case beyond unit diagonals: {} cases, {} met the hypotheses,", self.cases, self.covered);
        println!(
            "{} of them with s above 0, {} different s; {} were Complete, with {} entries of their sets",
            self.above_zero,
            self.scales.len(),
            self.complete,
            self.entries
        );
        println!("and {} outputs of diagonals in original order", self.outputs);
        println!(
            "the least s held against every s from 0 to {MAX_SCALE}: {} cases, {} of them with none",
            self.least, self.none
        );
        println!("the first number that is not covered:");
        for (what, count) in &self.faults {
            println!("  {what}: {count}");
        }
    }
}

/// The step and its fault by name, the rows left out.
fn named((step, _, _, fault): &Fault) -> String {
    let step = match step {
        ExactStep::FactorEntry => "FactorEntry",
        ExactStep::Product(_) => "Product",
        ExactStep::Sum(_) => "Sum",
        ExactStep::Square => "Square",
        ExactStep::Reciprocal => "Reciprocal",
        ExactStep::Quotient => "Quotient",
        ExactStep::Entry => "Entry",
    };
    format!("{step} {fault:?}")
}

/// The cases of a seed.
pub fn compare_multiple_cases(seed: u64, tally: &mut Tally) {
    let mut random = Random::new(seed);
    let before = tally.unexpected;
    let (cases, above_zero) = (tally.exactness.cases, tally.exactness.above_zero);
    for made in multiple_cases(seed) {
        let case = Block::new(&made.name, made.call.function.name());
        let whole = WholeMultiple::of(&Factor::kept(&made.call.factor));
        let scale = checked_scale(&made, &whole, &case, tally);
        let calls = compare_multiple(&made.call, &whole, scale, made.known, &case, &mut random, tally);
        tally.compared("multiples", &case, calls);
        if random.below(EVERY_CALL) == 0 {
            for call in other_calls(&made.call, &mut random) {
                let case = Block::new(&made.name, call.function.name());
                let calls = compare_multiple(&call, &whole, scale, Known::Nothing, &case, &mut random, tally);
                tally.compared("multiples", &case, calls);
            }
        }
    }
    for (step, fault) in FAULTS {
        if !tally.exactness.faults.contains_key(&format!("{step} {fault:?}")) {
            println!("of no case is {step} {fault:?} the first number that is not covered");
            tally.unexpected += 1;
        }
    }
    let count = tally.exactness.cases - cases;
    let many = tally.exactness.above_zero - above_zero;
    if many * MANY < count {
        println!("only {many} of {count} cases meet the hypotheses with s above 0");
        tally.unexpected += 1;
    }
    println!("multiples of seed {seed}: {count} cases, {} unexpected differences", tally.unexpected - before);
}

/// The other calls that fill result lists, with the factor of a case: the diagonal in original order; variances and
/// covariances of operators with whole weights.
fn other_calls(call: &Call, random: &mut Random) -> [Call; 3] {
    let n = call.factor.n;
    let factor = || call.factor.clone();
    let mut order: Vec<u32> = (0..n as u32).collect();
    random.shuffle(&mut order);
    let mut operator = || {
        let (mut starts, mut columns) = (vec![0], Vec::new());
        for _ in 0..1 + random.below(3) {
            columns.extend((0..random.below(4)).map(|_| random.below(n) as u32));
            starts.push(columns.len() as u32);
        }
        let weights = List::made(columns.len(), |_| random.whole(9) as f64);
        OperatorLists { ncols: n, row_starts: List::new(&starts), columns: List::new(&columns), weights }
    };
    let (operator, other) = (operator(), operator());
    let row_pairs = RowPairLists { a_rows: List::new(&[0]), b_rows: List::new(&[0]) };
    [
        Call {
            function: Function::OriginalDiag,
            factor: factor(),
            permutation: PermutationLists { orig_to_perm: List::new(&order), ..PermutationLists::default() },
            ..Call::default()
        },
        Call { function: Function::OperatorVariances, factor: factor(), operator: operator.clone(), ..Call::default() },
        Call { function: Function::Covariances, factor: factor(), operator, other, row_pairs, ..Call::default() },
    ]
}

/// Makes a call, without lists lent for writing, and compares it; how many calls there were.
fn compare_multiple(
    call: &Call,
    whole: &WholeMultiple,
    scale: u32,
    known: Known,
    case: &Block,
    random: &mut Random,
    tally: &mut Tally,
) -> usize {
    let mut call = call.clone();
    let set = requested(&call).closed(&Factor::kept(&call.factor));
    tally.exactness.cases += 1;
    let read = whole.multipliers(&set, scale as usize);
    let told = told(&call, scale);
    if !same(&read, &told, &set) {
        let what = format!("s = {scale}: the crate's check gives {told:?}, the driver {:?}", read.as_ref().err());
        tally.differs(&[what], case, &call);
    }
    let fits = match (&read, known) {
        (_, Known::Nothing) => true,
        (Ok(_), known) => known == Known::Covered,
        (Err((step, _, _, fault)), known) => known == Known::Not(*step, *fault),
    };
    if !fits {
        let what = format!("s = {scale}: {:?}, which the case is not made for", read.as_ref().err());
        tally.differs(&[what], case, &call);
    }
    lend(&mut call, random, some_more);
    let (reply, after) = compare_call(call.clone(), &rules::expected(call.clone()), case, tally);
    let multipliers = match read {
        Ok(multipliers) => multipliers,
        Err(fault) => {
            *tally.exactness.faults.entry(named(&fault)).or_default() += 1;
            return 1;
        }
    };
    tally.exactness.covered += 1;
    tally.exactness.above_zero += usize::from(scale > 0);
    *tally.exactness.scales.entry(scale).or_default() += 1;
    let inverse = whole.inverse();
    for (i, j) in set.listed() {
        if !inverse.is(i, j, multipliers[place(i, j)], scale as usize) {
            tally.differs(&[format!("({i},{j}) of the inverse is another number")], case, &call);
        }
    }
    let within = set.count() <= limit(&call);
    // past the default limit the diagonal in original order is refused with 8
    let refusal = if within || call.function != Function::OriginalDiag { 0 } else { 8 };
    if reply.complete() != within || reply.refusal != refusal {
        tally.differs(&["Complete is not told as the set's size says".to_string()], case, &call);
    }
    if !reply.complete() {
        return 1;
    }
    tally.exactness.complete += 1;
    tally.exactness.entries += set.count();
    if call.function == Function::OriginalDiag {
        tally.exactness.outputs += set.dimension();
        let order = call.permutation.orig_to_perm.iter().map(|&p| p as usize);
        let exact = order.map(|p| value(multipliers[place(p, p)], scale));
        if !after.output.values.iter().zip(exact).all(|(&output, exact)| output == exact) {
            tally.differs(&[format!("an output is not the inverse's with s = {scale}")], case, &after);
        }
    }
    1 + compare_lookups(&after, &set, &multipliers, scale, case, tally)
}

/// The scale of a case. Where none is given it is the least, and 0 where there is none; of some cases every scale is tried.
fn checked_scale(made: &MultipleCase, whole: &WholeMultiple, case: &Block, tally: &mut Tally) -> u32 {
    let set = requested(&made.call).closed(&Factor::kept(&made.call.factor));
    let every = tally.exactness.cases.is_multiple_of(EVERY_SCALE);
    if made.scale.is_some() && !every {
        return made.scale.unwrap_or(0);
    }
    let (factor, pattern) = as_asked(&made.call);
    let least = least_exact_multipliers(&factor, &pattern);
    if every {
        let found = (0..=MAX_SCALE).find(|&s| whole.multipliers(&set, s as usize).is_ok());
        tally.exactness.least += 1;
        tally.exactness.none += usize::from(found.is_none());
        if found != least.as_ref().ok().map(|exact| exact.scale()) {
            let what = format!("the least s is {found:?}, the crate's check gives {:?}", least.as_ref().err());
            tally.differs(&[what], case, &made.call);
        }
    }
    made.scale.unwrap_or_else(|| match least {
        Ok(exact) => exact.scale(),
        Err(NotExact::NoScale { uncovered, .. }) => uncovered.scale,
        Err(_) => 0,
    })
}

fn as_asked(call: &Call) -> (CholeskyFactor, SparseSymmetricPattern) {
    let lists = &call.factor;
    let factor = CholeskyFactor::new(lists.n, lists.starts.to_vec(), lists.rows.to_vec(), lists.values.to_vec());
    let pattern = SparseSymmetricPattern { dimension: lists.n, pairs: requested(call).listed().collect() };
    (factor.expect("the factors are sound"), pattern)
}

type Told = Result<redstartgilt::ExactMultipliers, NotExact>;

/// What the crate's check says.
fn told(call: &Call, scale: u32) -> Told {
    let (factor, pattern) = as_asked(call);
    exact_multipliers(&factor, &pattern, scale)
}

/// Whether both have the same multipliers at every pair, or the same number that is not covered.
fn same(read: &Result<Vec<i64>, Fault>, told: &Told, set: &Pairs) -> bool {
    let n = set.dimension();
    match (read, told) {
        (Ok(multipliers), Ok(exact)) => (0..n + 1).all(|row| {
            (0..n + 1).all(|column| {
                let inside = row < n && column < n && set.has(row, column);
                exact.get(row, column) == inside.then(|| multipliers[place(row, column)])
            })
        }),
        (Err(fault), Err(NotExact::Uncovered(told))) => *fault == (told.step, told.row, told.column, told.fault),
        _ => false,
    }
}

/// multiplier / 2^scale: a number within 2^53 and a power of two are floats, and the quotient is one.
fn value(multiplier: i64, scale: u32) -> f64 {
    multiplier as f64 / 2f64.powi(scale as i32)
}

/// Looks up every pair, in either order, and pairs outside: each of the set is its multiplier over 2^scale, every other absent.
fn compare_lookups(
    after: &Call,
    set: &Pairs,
    multipliers: &[i64],
    scale: u32,
    case: &Block,
    tally: &mut Tally,
) -> usize {
    let n = set.dimension();
    let mut call = Call {
        function: Function::Get,
        entries: EntryLists {
            starts: List::new(&after.result.starts[..n + 1]),
            rows: after.result.rows.clone(),
            values: after.result.values.clone(),
        },
        ..Call::default()
    };
    for row in 0..n + 1 {
        for column in 0..n + 1 {
            call.pair = Pair { row, column };
            let reply = call.make();
            let inside = row < n && column < n && set.has(row, column);
            let as_it_must = if inside {
                reply.refusal == 0 && reply.value == value(multipliers[place(row, column)], scale)
            } else {
                reply.refusal == 8
            };
            if !as_it_must {
                let what = format!("({row},{column}) reads back as {reply:?} with s = {scale}");
                tally.differs(&[what], case, after);
            }
        }
    }
    (n + 1) * (n + 1)
}
