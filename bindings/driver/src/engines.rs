//! The whole-number engine in `compare`: by the driver's rules, beside the float engine on the same factor, and beside the
//! Rust's answer.

use crate::call::Call;
use crate::compare::{compare_by_rules, compare_call, compare_case, pairs, some_more, Tally};
use crate::function::Function;
use crate::lend::lend;
use crate::list::List;
use crate::random::Random;
use crate::reply::Reply;
use crate::rules::{self, limit, requested, Factor};
use crate::subjects::{EntryLists, Pair};
use crate::text::{value, Block, Blocks};
use crate::variances::compare_over_result;
use crate::whole::{exact, Kind, KINDS};
use crate::whole_cases::{whole_cases, WholeCase};
use crate::whole_factors::{as_floats, as_wholes};
use std::io::{self, BufReader, BufWriter, Write};
use std::path::Path;
use std::process::{Command, Stdio};

/// A made call and its reply.
pub struct Made<'a> {
    pub reply: &'a Reply,
    pub call: &'a Call,
}

/// The cases of whole numbers of a seed, answered by the Rust as floats.
pub fn compare_whole_cases(folder: &Path, seed: u64, tally: &mut Tally) -> io::Result<()> {
    let mut oracle = Command::new(folder.join("oracle")).stdin(Stdio::piped()).stdout(Stdio::piped()).spawn()?;
    let mut asked = BufWriter::new(oracle.stdin.take().expect("piped"));
    let asking = std::thread::spawn(move || {
        whole_cases(seed).try_for_each(|case| asked.write_all(as_text(&case, seed).text().as_bytes()))?;
        asked.flush()
    });
    let mut answers = Blocks::new(BufReader::with_capacity(1 << 20, oracle.stdout.take().expect("piped")));
    let mut random = Random::new(seed);
    let (mut count, before) = (0, tally.unexpected);
    let mut alone = [0; KINDS.len()];
    for whole in whole_cases(seed) {
        let case = as_text(&whole, seed);
        let answer = answers.next()?.filter(|a| a.name == case.name && a.kind == case.kind);
        let answer = answer.ok_or_else(|| io::Error::other(format!("the oracle has no answer to {}", case.name)))?;
        let known = compare_kinds(&whole, &case, tally);
        if let [kind] = known[..] {
            alone[kind as usize] += 1;
        }
        let calls = compare_case(&case, &answer, Some(&whole.call), seed, &mut random, tally);
        tally.compared("whole", &case, calls);
        count += 1;
    }
    asking.join().expect("the thread ends")?;
    if !oracle.wait()?.success() {
        return Err(io::Error::other("the oracle failed on whole"));
    }
    for kind in KINDS.into_iter().filter(|&kind| alone[kind as usize] == 0) {
        println!("of no case passes {kind:?} alone");
        tally.unexpected += 1;
    }
    println!("whole of seed {seed}: {count} cases, {} unexpected differences", tally.unexpected - before);
    Ok(())
}

/// The case as the Rust is asked: selected entries of the factor as floats, then a few lookups.
fn as_text(whole: &WholeCase, seed: u64) -> Block {
    let call = &whole.call;
    let mut case = Block::new(&whole.name, "entries");
    case.put_factor(&as_floats(&call.whole_factor));
    case.put("rdim", call.requests.dimension);
    case.put_numbers("rrows", &call.requests.rows);
    case.put_numbers("rcols", &call.requests.columns);
    if call.function == Function::WholeEntries {
        case.put("limit", "default");
    } else {
        case.put("limit", call.limit);
    }
    let mut random = Random::new(seed ^ call.whole_factor.rows.len() as u64);
    let n = call.whole_factor.n;
    let mut index = |_| random.below(n + 1) as u32;
    let (rows, columns): (Vec<u32>, Vec<u32>) = ((0..8).map(&mut index).collect(), (0..8).map(&mut index).collect());
    case.put_numbers("prows", &rows);
    case.put_numbers("pcols", &columns);
    case
}

/// The kinds of the numbers that pass 2^53 where the call looks at sizes, which must be those that the case was made for.
fn compare_kinds(whole: &WholeCase, case: &Block, tally: &mut Tally) -> Vec<Kind> {
    let factor = Factor::kept(&whole.call.whole_factor);
    let set = requested(&whole.call).closed(&factor);
    if factor.diagonals.iter().any(|&d| d != Some(1)) || set.count() > limit(&whole.call) {
        return Vec::new();
    }
    let kinds = exact(&factor, &set).kinds();
    tally.sizes(&kinds);
    if whole.passed.as_ref().is_some_and(|passed| *passed != kinds) {
        let what = format!("2^53 is passed by {kinds:?}, the case is made for {:?}", whole.passed);
        tally.differs(&[what], case, &whole.call);
    }
    kinds
}

/// The whole-number call of a float call, where its factor is of whole numbers.
pub fn whole_call(call: &Call) -> Option<Call> {
    let function = match call.function {
        Function::EntriesWithLimit => Function::WholeEntriesWithLimit,
        Function::Entries => Function::WholeEntries,
        _ => return None,
    };
    let whole_factor = as_wholes(&call.factor)?;
    Some(Call { function, whole_factor, requests: call.requests.clone(), limit: call.limit, ..Call::default() })
}

/// Makes a whole-number call, without lists lent for writing, and the lookups of its case; compares them by the rules, with
/// the float call of the same factor, and with the Rust's answer to that; then a row and a track over its result. How many
/// calls there were.
pub fn compare_engines(
    call: &Call,
    floats: &Made,
    case: &Block,
    answer: &Block,
    random: &mut Random,
    tally: &mut Tally,
) -> usize {
    let mut call = call.clone();
    lend(&mut call, random, some_more);
    let (reply, made) = compare_call(call.clone(), &rules::expected(call.clone()), case, tally);
    let check =
        Call { function: Function::CheckWholeFactor, whole_factor: call.whole_factor.clone(), ..Call::default() };
    compare_by_rules(check, case, tally);
    let wholes = Made { reply: &reply, call: &made };
    tally.differs(&beside_floats(&wholes, floats), case, &call);
    if reply.refusal > 0 {
        return 2;
    }
    tally.differs(&beside_the_rust(&wholes, answer), case, &call);
    if !reply.complete() {
        return 2;
    }
    let pairs = if case.has("prows") { pairs(case) } else { Vec::new() };
    let entries = EntryLists {
        starts: List::new(&made.whole_result.starts[..made.whole_factor.n + 1]),
        rows: made.whole_result.rows.clone(),
        values: made.whole_result.values.clone(),
    };
    for (&(row, column), word) in pairs.iter().zip(answer.items("gets")) {
        let get = Call {
            function: Function::GetWhole,
            whole_entries: entries.clone(),
            pair: Pair { row, column },
            ..Call::default()
        };
        let got = compare_by_rules(get, case, tally);
        let same = match word {
            "none" => got.refusal == 8,
            digits => got.refusal == 0 && equal(got.whole, value(digits)),
        };
        if !same {
            tally.differs(&[format!("get_whole ({row},{column}): {got:?}, the Rust {word}")], case, &call);
        }
    }
    2 + pairs.len() + compare_over_result(&made, case, random, tally)
}

/// Equal as numbers; a whole number within 2^53 is a float.
fn equal(whole: i64, float: f64) -> bool {
    whole as f64 == float
}

/// What differs between the engines on one factor: a refusal before 19 is both's; where the whole-number engine refuses with
/// 20 the float call completes; where it answers, so does the float call, with the same status and counts, and, Complete, with
/// the same lists, values equal as numbers.
fn beside_floats(wholes: &Made, floats: &Made) -> Vec<String> {
    let (reply, beside) = (wholes.reply, floats.reply);
    let agree = match reply.refusal {
        0 => reply.same(beside),
        19 => beside.refusal == 0 || beside.refusal == 6,
        20 => beside.complete(),
        number => beside.refusal == number,
    };
    if !agree {
        return vec![format!("the whole-number engine replies {reply:?}, the float engine {beside:?}")];
    }
    if !reply.complete() {
        return Vec::new();
    }
    let (ours, other) = (&wholes.call.whole_result, &floats.call.result);
    let (n, size) = (wholes.call.whole_factor.n, reply.closure);
    let mut found = Vec::new();
    if ours.starts[..n + 1] != other.starts[..n + 1] || ours.rows[..size] != other.rows[..size] {
        found.push("the engines list other pairs".to_string());
    }
    if let Some(p) = (0..size).find(|&p| !equal(ours.values[p], other.values[p])) {
        found.push(format!("value {p} is {} in whole numbers, {} in floats", ours.values[p], other.values[p]));
    }
    found
}

/// What differs from the Rust's answer, the call being accepted.
fn beside_the_rust(wholes: &Made, answer: &Block) -> Vec<String> {
    let (reply, result) = (wholes.reply, &wholes.call.whole_result);
    let counts =
        [("requested", reply.requested), ("closure", reply.closure), ("factor", reply.factor), ("limit", reply.limit)];
    let status = if reply.complete() { "Complete" } else { "ClosureTooLarge" };
    if answer.field("status") != status || counts.iter().any(|&(name, count)| answer.number(name) != count) {
        return vec![format!("the whole-number engine replies {reply:?}, the Rust {}", answer.shown())];
    }
    if !reply.complete() {
        return Vec::new();
    }
    let values = answer.values("values");
    let same = result.starts[..wholes.call.whole_factor.n + 1] == answer.numbers("starts")
        && result.rows[..reply.closure] == answer.numbers("rows")
        && values.len() == reply.closure
        && values.iter().zip(result.values.iter()).all(|(&float, &whole)| equal(whole, float));
    if same {
        Vec::new()
    } else {
        vec!["the lists in whole numbers are other than the Rust's".to_string()]
    }
}
