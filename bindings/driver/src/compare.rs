//! `compare`: generated cases, answered by the Rust's functions and by the library.
//!
//! Program `generate` of the oracle's folder writes the cases twice, once into program `oracle`, once to here, so that
//! nothing is held but one case and its answer. What the library must reply and leave is the Rust's answer; where
//! document 01 refuses, or document 02 a factor that is not finite, it is that refusal, and how the Rust differs is
//! counted. The set `whole` is the driver's own: calls of the whole-number engine, which the Rust answers as floats. So is
//! the set `variances`: rows whose weights are known within ranges, and tracks, which the Rust has not; the set
//! `multiples`: selected entries in the exact case beyond unit diagonals; the set `ldl`: unit lower factors with pivots,
//! which it has not either; and the set `files`: requests written as files and read from them.

use crate::call::Call;
use crate::chains::{chosen, Chains};
use crate::engines::{compare_engines, compare_whole_cases, whole_call, Made};
use crate::exactness::{compare_multiple_cases, Exactness};
use crate::expected::Expected;
use crate::families::{compare_ldl_cases, compare_with_ones, Families};
use crate::function::{Function, LOOKUPS};
use crate::lend::lend;
use crate::list::List;
use crate::random::Random;
use crate::refusals::{refusal, MOST_COLUMNS};
use crate::reply::Reply;
use crate::round_trips::compare_round_trips;
use crate::rules;
use crate::subjects::{
    EntryLists, FactorLists, OperatorLists, Pair, PermutationLists, RequestLists, ResultLists, RowPairLists, ValueLists,
};
use crate::text::{value, Block, Blocks};
use crate::variances::{compare_variance_cases, Choices};
use crate::whole::Kind;
use redstartgilt::sys;
use std::collections::BTreeMap;
use std::io::{self, BufReader};
use std::path::Path;
use std::process::{Command, Stdio};

const SETS: [&str; 19] = [
    "worked", "tiny", "random", "special", "exact", "dyadic", "grid", "large", "wide", "default", "diagorig", "opvar",
    "pattern", "perm", "floor", "least", "lookup", "refuse", "timing",
];
/// The first is the generator's own.
const SEEDS: [u64; 3] = [1, 7, 11];
/// To this dimension the driver's rules are held against the Rust's answer too.
const RULES_DIMENSION: usize = 64;
/// To this dimension the driver's chain is held against every chain that there is.
const EVERY_CHAIN: usize = 5;
/// So many unexpected differences are written out.
const SHOWN: usize = 20;

/// An error that says what is needed where the folder has not the oracle's programs.
pub fn oracle_is_there(folder: &Path) -> io::Result<()> {
    if folder.join("generate").is_file() && folder.join("oracle").is_file() {
        return Ok(());
    }
    Err(io::Error::other(format!(
        "{} has no programs `generate` and `oracle`. `bash bindings/oracle/build.sh FOLDER` builds them into \
         bindings/oracle/target/release; FOLDER has the Rust's files that bindings/oracle/sources.txt names",
        folder.display()
    )))
}

/// The number of differences that are not the documents'.
pub fn compare(folder: &Path, seeds: &[u64], huge: bool) -> io::Result<usize> {
    let mut tally = Tally::default();
    if huge {
        compare_set(folder, "huge", SEEDS[0], &mut tally)?;
    } else {
        for &seed in seeds_of(seeds) {
            for set in SETS {
                compare_set(folder, set, seed, &mut tally)?;
            }
            compare_whole_cases(folder, seed, &mut tally)?;
            compare_variance_cases(seed, &mut tally);
            compare_multiple_cases(seed, &mut tally);
            compare_ldl_cases(seed, &mut tally);
            compare_round_trips(seed, &mut tally);
        }
    }
    tally.report();
    Ok(tally.unexpected)
}

/// The same of the set `variances` alone.
pub fn compare_variances(seeds: &[u64]) -> usize {
    let mut tally = Tally::default();
    seeds_of(seeds).iter().for_each(|&seed| compare_variance_cases(seed, &mut tally));
    tally.report();
    tally.unexpected
}

/// The same of the set `multiples` alone.
pub fn compare_multiples(seeds: &[u64]) -> usize {
    let mut tally = Tally::default();
    seeds_of(seeds).iter().for_each(|&seed| compare_multiple_cases(seed, &mut tally));
    tally.report();
    tally.unexpected
}

/// The same of the set `ldl` alone.
pub fn compare_ldl(seeds: &[u64]) -> usize {
    let mut tally = Tally::default();
    seeds_of(seeds).iter().for_each(|&seed| compare_ldl_cases(seed, &mut tally));
    tally.report();
    tally.unexpected
}

/// The same of the set `files` alone.
pub fn compare_files(seeds: &[u64]) -> usize {
    let mut tally = Tally::default();
    seeds_of(seeds).iter().for_each(|&seed| compare_round_trips(seed, &mut tally));
    tally.report();
    tally.unexpected
}

/// Those that are used where none is given.
fn seeds_of(seeds: &[u64]) -> &[u64] {
    if seeds.is_empty() {
        &SEEDS
    } else {
        seeds
    }
}

#[derive(Default)]
pub struct Tally {
    /// cases and calls by set and kind
    counts: BTreeMap<(String, String), (usize, usize)>,
    /// cases of more than half as many columns as are allowed
    wide: usize,
    /// replies by kind
    replies: BTreeMap<(String, String), usize>,
    /// chains compared, those among several as short, those held against every chain, and the most pairs of one
    chains: [usize; 3],
    longest: usize,
    /// of calls of the whole-number engine that look at sizes: the kinds of numbers that pass 2^53, how often
    sizes: BTreeMap<Vec<Kind>, usize>,
    pub choices: Choices,
    pub exactness: Exactness,
    pub families: Families,
    /// how the Rust differs where a document says otherwise: how often, and a case
    intended: BTreeMap<String, (usize, String)>,
    pub unexpected: usize,
}

impl Tally {
    pub fn differs(&mut self, what: &[String], case: &Block, call: &Call) {
        if what.is_empty() {
            return;
        }
        self.unexpected += 1;
        if self.unexpected <= SHOWN {
            println!("DIFFERENT {}\n{}\n{}\n{}", case.name, what.join("\n"), case.shown(), call.told());
        }
    }

    fn intended(&mut self, what: String, case: &Block, seed: u64) {
        let entry = self.intended.entry(what).or_insert_with(|| (0, format!("{} of seed {seed}", case.name)));
        entry.0 += 1;
    }

    fn replied(&mut self, call: &Call, reply: &Reply) {
        let what = match reply.refusal {
            0 if call.function.selects() && reply.status != sys::REDSTARTGILT_COMPLETE => "ClosureTooLarge".to_string(),
            0 if call.function.selects() => "Complete".to_string(),
            0 => "accepted".to_string(),
            number => format!("refusal {number:2}"),
        };
        *self.replies.entry((call.function.name().to_string(), what)).or_insert(0) += 1;
    }

    /// Counts the calls of a case.
    pub fn compared(&mut self, set: &str, case: &Block, calls: usize) {
        let entry = self.counts.entry((set.to_string(), case.kind.clone())).or_default();
        *entry = (entry.0 + 1, entry.1 + calls);
    }

    /// Counts a case of a dimension in the upper half of those allowed.
    pub fn wide(&mut self, n: usize) {
        self.wide += usize::from((MOST_COLUMNS / 2 + 1..=MOST_COLUMNS).contains(&n));
    }

    /// Counts the kinds of numbers that pass 2^53.
    pub fn sizes(&mut self, kinds: &[Kind]) {
        *self.sizes.entry(kinds.to_vec()).or_default() += 1;
    }

    fn report(&self) {
        println!("\nset kind: cases, calls");
        for ((set, kind), (cases, calls)) in &self.counts {
            println!("  {set} {kind}: {cases}, {calls}");
        }
        println!("\nfunction: replies");
        for ((function, reply), count) in &self.replies {
            println!("  {function}: {reply}: {count}");
        }
        let [chains, several, every] = self.chains;
        if chains > 0 {
            println!("\n{chains} chains of up to {} pairs, {several} among several as short;", self.longest);
            println!("{every} answers held against every chain that there is");
        }
        if !self.sizes.is_empty() {
            println!("\nnumbers past 2^53, cases of the set whole");
        }
        for (kinds, count) in &self.sizes {
            println!("  {kinds:?}: {count}");
        }
        self.choices.report();
        self.exactness.report();
        self.families.report();
        if !self.intended.is_empty() {
            println!("\nwhere a document says otherwise than the Rust");
        }
        for (what, (count, example)) in &self.intended {
            println!("  {what}: {count}, as {example}");
        }
        let sum = self.counts.values().fold((0, 0), |s, c| (s.0 + c.0, s.1 + c.1));
        println!("\n{} cases, {} calls, {} unexpected differences", sum.0, sum.1, self.unexpected);
        println!("{} cases of dimension {} to {MOST_COLUMNS}", self.wide, MOST_COLUMNS / 2 + 1);
    }
}

fn compare_set(folder: &Path, set: &str, seed: u64, tally: &mut Tally) -> io::Result<()> {
    let generate =
        || Command::new(folder.join("generate")).arg(set).arg(seed.to_string()).stdout(Stdio::piped()).spawn();
    let mut asked = generate()?;
    let mut given = generate()?;
    let mut oracle = Command::new(folder.join("oracle"))
        .stdin(asked.stdout.take().expect("piped"))
        .stdout(Stdio::piped())
        .spawn()?;
    let mut cases = Blocks::new(BufReader::with_capacity(1 << 20, given.stdout.take().expect("piped")));
    let mut answers = Blocks::new(BufReader::with_capacity(1 << 20, oracle.stdout.take().expect("piped")));
    let mut random = Random::new(seed);
    let (mut count, before) = (0, tally.unexpected);
    while let Some(case) = cases.next()? {
        let answer = answers.next()?.filter(|a| a.name == case.name && a.kind == case.kind);
        let answer = answer.ok_or_else(|| io::Error::other(format!("the oracle has no answer to {}", case.name)))?;
        let calls = compare_case(&case, &answer, None, seed, &mut random, tally);
        tally.compared(set, &case, calls);
        count += 1;
    }
    for child in [&mut asked, &mut given, &mut oracle] {
        if !child.wait()?.success() {
            return Err(io::Error::other(format!("a program of the oracle failed on {set}")));
        }
    }
    println!("{set} of seed {seed}: {count} cases, {} unexpected differences", tally.unexpected - before);
    Ok(())
}

/// How many unexpected differences a case has.
pub fn differences(case: &Block, answer: &Block) -> usize {
    let mut tally = Tally::default();
    compare_case(case, answer, None, SEEDS[0], &mut Random::new(0), &mut tally);
    tally.unexpected
}

/// The call of a case, without the lists lent for writing; `get` takes its pairs one by one.
pub fn call_of(case: &Block) -> Call {
    let (words, values) = (|name| List::new(&case.numbers(name)), |name| List::new(&case.values(name)));
    let entries = || EntryLists { starts: words("starts"), rows: words("rows"), values: values("values") };
    let factor = |function| Call {
        function,
        factor: FactorLists {
            n: case.number("n"),
            starts: words("starts"),
            rows: words("rows"),
            values: values("values"),
        },
        ..Call::default()
    };
    let operator = || OperatorLists {
        ncols: case.number("ncols"),
        row_starts: words("ostarts"),
        columns: words("ocols"),
        weights: values("oweights"),
    };
    let permutation = || PermutationLists { orig_to_perm: words("perm"), perm_to_orig: words("inv") };
    let input = || ValueLists { input: values("input"), ..ValueLists::default() };
    let simple = |function| Call { function, ..Call::default() };
    match case.kind.as_str() {
        "entries" => {
            let default = case.field("limit") == "default";
            let requests =
                RequestLists { dimension: case.number("rdim"), rows: words("rrows"), columns: words("rcols") };
            if default {
                Call { requests, ..factor(Function::Entries) }
            } else {
                Call { requests, limit: case.number("limit"), ..factor(Function::EntriesWithLimit) }
            }
        }
        "defaultlimit" => Call {
            requests: RequestLists { dimension: case.number("n"), ..RequestLists::default() },
            ..factor(Function::Entries)
        },
        "get" => Call { entries: entries(), ..simple(Function::Get) },
        "diag" => Call { entries: entries(), ..simple(Function::Diag) },
        "diagorig" => Call { permutation: permutation(), ..factor(Function::OriginalDiag) },
        "opvar" => Call { operator: operator(), ..factor(Function::OperatorVariances) },
        "patfactor" => factor(Function::FactorPattern),
        "patoperator" => Call { operator: operator(), ..simple(Function::OperatorPattern) },
        "permvalidate" => Call { permutation: permutation(), ..simple(Function::Validate) },
        "permfrom" => Call { permutation: permutation(), ..simple(Function::Inverse) },
        "permapply" => Call { permutation: permutation(), values: input(), ..simple(Function::Reorder) },
        "floor" if case.field("floor") == "zero" => Call { values: input(), ..simple(Function::FloorZero) },
        "floor" => {
            Call { values: ValueLists { scale: value(case.field("scale")), ..input() }, ..simple(Function::FloorMean) }
        }
        "least" => Call { values: input(), ..simple(Function::Least) },
        kind => panic!("{}: kind {kind}", case.name),
    }
}

/// What is needed, in four cases of ten a few places more.
pub fn some_more(random: &mut Random, need: usize) -> usize {
    if random.chance(40) {
        need + 1 + random.below(8)
    } else {
        need
    }
}

/// Makes the calls of a case and compares them; how many there were. Selected entries are asked for in whole numbers too,
/// by the call given, or where the factor is of such.
pub fn compare_case(
    case: &Block,
    answer: &Block,
    whole: Option<&Call>,
    seed: u64,
    random: &mut Random,
    tally: &mut Tally,
) -> usize {
    let mut call = call_of(case);
    if case.kind == "get" {
        return compare_lookups(call, case, answer, seed, tally);
    }
    tally.wide(call.dimension());
    lend(&mut call, random, some_more);
    let mut made = call.clone();
    let reply = made.make();
    tally.replied(&call, &reply);
    let number = refusal(&call);
    let said = said(case, answer);
    if said != Some(number) {
        let document = match number {
            0 => "document 01 accepts".to_string(),
            18 => "document 02 refuses with 18".to_string(),
            _ => format!("document 01 refuses with {number}"),
        };
        let what = format!("{}: {document}, the Rust: {}", case.kind, answer.field("reply"));
        if number == 0 {
            tally.differs(&[what], case, &call);
            return 1;
        }
        tally.intended(what, case, seed);
    }
    let small = call.dimension() <= RULES_DIMENSION;
    let by_rules = (small || case.kind == "defaultlimit").then(|| rules::expected(call.clone()));
    let expected = if number > 0 {
        rules::refused(number, call.clone())
    } else {
        answered(case, answer, call.clone(), by_rules.as_ref())
    };
    if case.kind == "least"
        && expected.reply.least.to_bits() != value(answer.field("least")).to_bits()
        && expected.reply.least == 0.0
    {
        tally.intended("least: the Rust keeps the later of two zeros".to_string(), case, seed);
    }
    tally.differs(&expected.differences(&reply, &made), case, &call);
    if let Some(by_rules) = by_rules {
        let mut found = by_rules.differences(&expected.reply, &expected.after);
        if !found.is_empty() {
            found.insert(0, "the driver's rules and the Rust differ".to_string());
        }
        tally.differs(&found, case, &call);
    }
    if answer.field("route").contains("DIFFERS") || answer.field("finish").contains("DIFFERS") {
        tally.differs(&["the Rust's own routes or finishing step differ".to_string()], case, &call);
    }
    let checks = usize::from(call.function.takes_factor());
    if call.function.takes_factor() {
        compare_factor_check(&call, number, case, tally);
    }
    let asked = matches!(call.function, Function::EntriesWithLimit | Function::Entries) && case.kind == "entries";
    let chains = if asked { compare_chains(&call, answer, case, random, tally) } else { 0 };
    let units = if asked { compare_with_ones(&call, &expected, case, tally) } else { 0 };
    let whole = if asked { whole.cloned().or_else(|| whole_call(&call)) } else { None };
    let floats = Made { reply: &reply, call: &made };
    let wholes = whole.map_or(0, |whole| compare_engines(&whole, &floats, case, answer, random, tally));
    let limits =
        call.function.limited().map_or(0, |limited| compare_limits(limited, &call, &expected, case, random, tally));
    let more = match call.function {
        Function::Reorder => compare_marked(call, &expected, case, random, tally),
        Function::OperatorVariances => compare_covariances(call, expected, case, random, tally),
        Function::Diag => {
            compare_by_rules(Call { function: Function::CheckResult, ..call }, case, tally);
            1
        }
        function if function.selects() && reply.complete() && answer.has("gets") => {
            compare_read_back(&made, case, answer, tally)
        }
        _ => 0,
    };
    1 + checks + chains + units + wholes + limits + more
}

/// The refusal that the Rust's answer stands for, 0 where it accepts.
fn said(case: &Block, answer: &Block) -> Option<u32> {
    let reply = answer.field("reply");
    if reply == "ok" {
        return Some(0);
    }
    match reply.rsplit(' ').next()? {
        "symmetric-pattern-index-exceeds-dimension" => Some(if case.kind == "entries" { 5 } else { 9 }),
        "NonPositiveDefinite" => Some(6),
        "SelectedInversePatternNotCovered" => Some(8),
        "selected-inverse-pattern-dimension-must-match-factor-dimension" => Some(4),
        "operator-columns-must-match-factor-dimension" => Some(4),
        "vector-length-must-match-factor-dimension" => Some(4),
        "permutation-index-exceeds-dimension" => Some(10),
        "permutation-contains-duplicate-entries" => Some(11),
        "permutation-arrays-must-have-the-same-length" => Some(12),
        "permutation-arrays-are-not-inverses" => Some(12),
        "variance-vector-contains-non-finite-entries" => Some(13),
        "variance-floor-scale-must-be-finite-and-nonnegative" => Some(14),
        _ => None,
    }
}

/// What the Rust's answer makes of an accepted call.
fn answered(case: &Block, answer: &Block, mut call: Call, by_rules: Option<&Expected>) -> Expected {
    fn fill<T: Copy>(list: &mut [T], front: Vec<T>) -> usize {
        // a list that is too short for the Rust's items shows as a difference
        let count = front.len().min(list.len());
        list[..count].copy_from_slice(&front[..count]);
        front.len()
    }
    let mut reply = Reply::default();
    let (mut values_filled, mut output_filled) = (0, 0);
    match case.kind.as_str() {
        "entries" | "diagorig" | "opvar" => {
            let complete = answer.field("status") == "Complete";
            reply.status = if complete { sys::REDSTARTGILT_COMPLETE } else { sys::REDSTARTGILT_CLOSURE_TOO_LARGE };
            reply.requested = answer.number("requested");
            reply.closure = answer.number("closure");
            reply.factor = answer.number("factor");
            reply.limit = answer.number("limit");
            reply.ratio = value(answer.field("ratio"));
            call.scratch[..rules::scratch_words(call.factor.n)].fill(0);
            if complete {
                fill(&mut call.result.starts, answer.numbers("starts"));
                fill(&mut call.result.rows, answer.numbers("rows"));
                values_filled = fill(&mut call.result.values, answer.values("values"));
                output_filled = fill(&mut call.output.values, answer.values("out"));
            }
        }
        "defaultlimit" => {
            // the Rust is asked for the limit alone
            let rules = by_rules.expect("made for this kind");
            reply = Reply { limit: answer.number("limit"), ..rules.reply };
            call = rules.after.clone();
        }
        "diag" => {
            output_filled = fill(&mut call.output.values, answer.values("diag"));
            // the marks are what the Rust's lookup finds
            fill(&mut call.output.marks, answer.items("gets").map(|word| u8::from(word != "none")).collect());
        }
        "patfactor" | "patoperator" => {
            let words = rules::mark_words(call.dimension());
            call.scratch[..words].fill(0);
            reply.pairs = fill(&mut call.pairs.rows, answer.numbers("prows"));
            fill(&mut call.pairs.columns, answer.numbers("pcols"));
        }
        "permfrom" => {
            fill(&mut call.permutation.perm_to_orig, answer.numbers("inv"));
        }
        "permapply" => output_filled = fill(&mut call.output.values, answer.values("out")),
        "floor" => {
            reply.floor = value(answer.field("floor"));
            reply.hits = answer.number("hits");
            output_filled = fill(&mut call.output.values, answer.values("out"));
        }
        "least" => {
            reply.negative = answer.number("negative");
            reply.least = value(answer.field("least"));
            if reply.least == 0.0 {
                // document 01's is the earlier zero
                reply.least = call.values.input.iter().copied().find(|&x| x == 0.0).unwrap_or(0.0);
            }
        }
        _ => {}
    }
    Expected { reply, after: call, values_filled, output_filled }
}

/// Makes a call and tells what differs from what is expected; its reply, and the call with its lists as they are then.
pub fn compare_call(call: Call, expected: &Expected, case: &Block, tally: &mut Tally) -> (Reply, Call) {
    let mut made = call.clone();
    let reply = made.make();
    tally.replied(&call, &reply);
    tally.differs(&expected.differences(&reply, &made), case, &call);
    (reply, made)
}

/// The check of a call's factor: it must refuse with 2, 3 and 18 exactly where the call is refused so, and with 1 only
/// where the call is, which has other lists to refuse with 1 for.
fn compare_factor_check(call: &Call, number: u32, case: &Block, tally: &mut Tally) {
    let check = Call { function: Function::CheckFactor, factor: call.factor.clone(), ..Call::default() };
    let checked = compare_by_rules(check, case, tally).refusal;
    let agree = match number {
        1 => true,
        2 | 3 | 18 => checked == number,
        _ => checked == 0,
    };
    if !agree {
        tally.differs(&[format!("check_factor gives {checked}, the call {number}")], case, call);
    }
}

/// The same call with a limit. The default one, given, gives what the call without it does, the Rust's. At the closed set's
/// size, one below and any other, by the driver's rules.
fn compare_limits(
    limited: Function,
    call: &Call,
    same: &Expected,
    case: &Block,
    random: &mut Random,
    tally: &mut Tally,
) -> usize {
    let default = rules::limit(call);
    let with = |call: &Call, limit| Call { function: limited, limit, ..call.clone() };
    let expected = Expected { after: with(&same.after, default), ..same.clone() };
    compare_call(with(call, default), &expected, case, tally);
    if call.factor.n > RULES_DIMENSION || !matches!(same.reply.refusal, 0 | 7 | 8) {
        return 1;
    }
    let size = rules::requested(call).closed(&rules::Factor::kept(&call.factor)).count();
    let limits = [size, size.saturating_sub(1), random.below(size + 2), usize::MAX];
    for limit in limits {
        let mut call = with(call, limit);
        lend(&mut call, random, some_more);
        compare_by_rules(call, case, tally);
    }
    1 + limits.len()
}

/// The same values reordered with marks: the values and the refusal as they were without, the marks by document 02.
fn compare_marked(call: Call, without: &Expected, case: &Block, random: &mut Random, tally: &mut Tally) -> usize {
    let length = some_more(random, call.permutation.orig_to_perm.len());
    let mut call = Call { function: Function::ReorderMarked, ..call };
    call.values.marks = List::made(call.values.input.len(), |_| random.bits() as u8);
    call.output.marks = List::made(length, |_| random.bits() as u8);
    let mut expected = rules::expected(call.clone());
    expected.reply = without.reply;
    expected.after.output.values = without.after.output.values.clone();
    compare_call(call, &expected, case, tally);
    1
}

/// Covariances over the factor and the operator of operator variances. Each row with itself asks for the same pairs, so
/// reply, lists and outputs are as they were, the Rust's; and where the operator is sound, any row pairs, by the driver's
/// own sums.
fn compare_covariances(call: Call, same: Expected, case: &Block, random: &mut Random, tally: &mut Tally) -> usize {
    let rows = call.operator.rows();
    let each: Vec<u32> = (0..rows as u32).collect();
    let small = call.factor.n <= RULES_DIMENSION;
    let two = |call: Call, a_rows: &[u32], b_rows: &[u32]| Call {
        function: Function::Covariances,
        other: call.operator.clone(),
        row_pairs: RowPairLists { a_rows: List::new(a_rows), b_rows: List::new(b_rows) },
        ..call
    };
    let itself = two(call.clone(), &each, &each);
    let limits = compare_limits(
        Function::CovariancesWithLimit,
        &itself,
        &Expected { after: two(same.after.clone(), &each, &each), ..same.clone() },
        case,
        random,
        tally,
    );
    let refused = same.reply.refusal > 0;
    compare_call(itself, &Expected { after: two(same.after, &each, &each), ..same }, case, tally);
    if !small || refused || rows == 0 {
        return 1 + limits;
    }
    let count = random.below(2 * rows + 1);
    let mut some = || (0..count).map(|_| random.below(rows) as u32).collect::<Vec<_>>();
    let mut others = two(call, &some(), &some());
    others.output.values = List::made(count, |_| random.any_value());
    compare_by_rules(others, case, tally);
    2 + limits
}

/// Chains to two pairs, over the factor and the requests of selected entries: the first a pair of the set, where the Rust
/// lists it, the second any, a few of them outside. "Not in the set" must be what the Rust's list says; the chain is the
/// driver's, for small factors held against every chain.
fn compare_chains(call: &Call, answer: &Block, case: &Block, random: &mut Random, tally: &mut Tally) -> usize {
    let n = call.factor.n;
    let complete = refusal(call) == 0 && answer.field("status") == "Complete";
    let (starts, rows) = (answer.numbers("starts"), answer.numbers("rows"));
    let column_of = |p: usize| starts.partition_point(|&start| start as usize <= p) - 1;
    for first in [true, false] {
        let edge = if random.chance(3) { 2 } else { 0 };
        let some = n.min(1 << 20) + edge;
        let mut pair = (random.below(some.max(1)), random.below(some.max(1)));
        if first && complete && !rows.is_empty() {
            let p = random.below(rows.len());
            pair = (rows[p] as usize, column_of(p));
        }
        if random.chance(30) {
            pair = (pair.1, pair.0);
        }
        let mut chain = Call {
            function: Function::DependencyChain,
            pair: Pair { row: pair.0, column: pair.1 },
            result: ResultLists::default(),
            ..call.clone()
        };
        lend(&mut chain, random, some_more);
        let reply = compare_by_rules(chain.clone(), case, tally);
        if reply.refusal > 0 {
            continue;
        }
        let (row, column) = chain.pair.ordered();
        if complete {
            let listed = rows[starts[column] as usize..starts[column + 1] as usize].contains(&(row as u32));
            if listed != (reply.pairs > 0) {
                tally.differs(&["the Rust's set and the chain differ".to_string()], case, &chain);
            }
        }
        let chains = Chains::of(&chain);
        tally.chains[0] += usize::from(reply.pairs > 0);
        tally.chains[1] += usize::from(reply.pairs > 0 && chains.several((row, column)));
        tally.longest = tally.longest.max(reply.pairs);
        if n <= EVERY_CHAIN {
            tally.chains[2] += 1;
            if chosen(&chain, (row, column)) != chains.chain((row, column)) {
                tally.differs(&["the driver's chain and the one chosen among all differ".to_string()], case, &chain);
            }
        }
    }
    2
}

pub fn pairs(case: &Block) -> Vec<(usize, usize)> {
    let columns = case.numbers("pcols");
    case.numbers("prows").into_iter().zip(columns).map(|(r, c)| (r as usize, c as usize)).collect()
}

/// A lookup's reply by the Rust's word for it.
fn got(word: &str) -> Reply {
    if word == "none" {
        Reply::refused(8)
    } else {
        Reply { value: value(word), ..Reply::default() }
    }
}

/// Makes a call, which must do as the driver's own rules say; the reply that they give.
pub fn compare_by_rules(call: Call, case: &Block, tally: &mut Tally) -> Reply {
    let expected = rules::expected(call.clone());
    compare_call(call, &expected, case, tally);
    expected.reply
}

/// Lookups in what a call left, which is well formed: the filled starts, and the rows and values as they are. Each must
/// find what the Rust's does, and look at as many places as the driver's own search.
fn compare_read_back(made: &Call, case: &Block, answer: &Block, tally: &mut Tally) -> usize {
    let mut call = Call {
        function: Function::CheckResult,
        entries: EntryLists {
            starts: List::new(&made.result.starts[..made.factor.n + 1]),
            rows: made.result.rows.clone(),
            values: made.result.values.clone(),
        },
        ..Call::default()
    };
    let before = call.clone();
    let mut compared = |call: &mut Call, expected: Reply| {
        let reply = call.make();
        tally.replied(call, &reply);
        if !expected.same(&reply) {
            let (name, row, column) = (call.function.name(), call.pair.row, call.pair.column);
            tally.differs(&[format!("{name} ({row},{column}): {reply:?} in place of {expected:?}")], case, made);
        }
    };
    compared(&mut call, Reply::default());
    let pairs = pairs(case);
    let gets: Vec<Reply> = answer.items("gets").map(got).collect();
    assert_eq!(gets.len(), pairs.len(), "{}", case.name);
    for (&(row, column), &expected) in pairs.iter().zip(&gets) {
        for function in LOOKUPS {
            (call.function, call.pair) = (function, Pair { row, column });
            let looks = if function == Function::GetCounted { rules::looks(&call.entries, &call.pair) } else { 0 };
            compared(&mut call, Reply { looks, ..expected });
        }
    }
    tally.differs(&Expected::untouched(Reply::default(), before).differences(&Reply::default(), &call), case, made);
    1 + LOOKUPS.len() * pairs.len()
}

/// The lookups of a `get` case, and the check of its lists. Document 01 decides where the Rust's columns cannot hold the
/// lists, or are searched as they are. In well-formed lists the lookup without checks must reply as `get`.
fn compare_lookups(mut call: Call, case: &Block, answer: &Block, seed: u64, tally: &mut Tally) -> usize {
    let pairs = pairs(case);
    let fed = answer.field("reply") == "ok";
    let gets: Vec<Reply> = answer.items("gets").map(got).collect();
    let check = Call { function: Function::CheckResult, ..call.clone() };
    let well_formed = compare_by_rules(check, case, tally).refusal == 0;
    for (at, &(row, column)) in pairs.iter().enumerate() {
        call.pair = Pair { row, column };
        let [expected, _, unchecked] =
            LOOKUPS.map(|function| compare_by_rules(Call { function, ..call.clone() }, case, tally));
        if well_formed && !unchecked.same(&expected) {
            tally.differs(&[format!("get {expected:?}, get_well_formed {unchecked:?}")], case, &call);
        }
        if !fed {
            tally.intended(
                format!("get: document 01 gives {}, the Rust: {}", expected.refusal, answer.field("reply")),
                case,
                seed,
            );
        } else if !expected.same(&gets[at]) {
            let rust = if gets[at].refusal == 8 { "none" } else { "a value" };
            let what = format!("get: document 01 gives {}, the Rust {rust}", expected.refusal);
            // only where document 01 refuses may the Rust say another thing
            if expected.refusal > 0 {
                tally.intended(what, case, seed);
            } else {
                tally.differs(&[what], case, &call);
            }
        }
    }
    1 + LOOKUPS.len() * pairs.len()
}
