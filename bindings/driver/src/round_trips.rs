//! The set `files` of `compare`: requests written as files, and files read, where each call must do as the driver's own rules
//! say, and what it gives must go round.
//!
//! A list that is written is read back as its set, each pair once by column then row; in another order and with other repeats
//! it gives the same bytes, and so does what was read. A file in any form, also one without entries, that is read and then
//! written gives the canonical bytes of its set.

use crate::call::Call;
use crate::compare::{compare_call, Tally};
use crate::files::sound_file;
use crate::function::Function;
use crate::lend::lend;
use crate::list::List;
use crate::matrix_market;
use crate::random::Random;
use crate::refusals::MOST_COLUMNS;
use crate::rules;
use crate::subjects::RequestLists;
use crate::text::Block;
use crate::written_lists::{lists_of, repeated, written_pairs, PairList};

/// So many lists and so many files a seed.
const CASES: usize = 4_000;

fn some_dimension(random: &mut Random) -> usize {
    match random.below(100) {
        0..=69 => random.below(14),
        70..=89 => random.below(130),
        90..=96 => random.below(1_100),
        97 => random.pick(&[MOST_COLUMNS - 1, MOST_COLUMNS]),
        _ => random.below(MOST_COLUMNS + 1),
    }
}

/// A case, its calls counted.
struct Trip<'a> {
    case: Block,
    calls: usize,
    random: &'a mut Random,
    tally: &'a mut Tally,
}

impl Trip<'_> {
    /// The call with lists as long as needed or a little longer, and its lists afterwards.
    fn made(&mut self, mut call: Call) -> (crate::reply::Reply, Call) {
        lend(&mut call, self.random, |random, need| need + random.pick(&[0, 0, 1, 5]));
        let expected = rules::expected(call.clone());
        self.calls += 1;
        let (reply, made) = compare_call(call, &expected, &self.case, self.tally);
        self.holds(reply.refusal == 0, "refused", &made);
        (reply, made)
    }

    fn written(&mut self, requests: RequestLists) -> Vec<u8> {
        let (reply, made) = self.made(Call { function: Function::WriteRequests, requests, ..Call::default() });
        made.file[..reply.bytes].to_vec()
    }

    fn read(&mut self, text: &[u8]) -> RequestLists {
        let call = Call { function: Function::ReadRequests, text: List::new(text), ..Call::default() };
        let (reply, made) = self.made(call);
        let front = |list: &[u32]| List::new(&list[..reply.requests]);
        RequestLists { dimension: reply.dimension, rows: front(&made.pairs.rows), columns: front(&made.pairs.columns) }
    }

    fn holds(&mut self, holds: bool, what: &str, call: &Call) {
        if !holds {
            self.tally.differs(&[what.to_string()], &self.case, call);
        }
    }

    /// What is read from the file of a set of pairs must be the set by column then row, and give the same bytes again.
    fn goes_round(&mut self, n: usize, pairs: &[(u32, u32)], text: &[u8]) {
        let mut set: PairList = pairs.to_vec();
        set.sort_by_key(|&(row, column)| (column, row));
        set.dedup();
        let read = self.read(text);
        let again = pairs_of(&read);
        let call = Call { requests: read.clone(), text: List::new(text), ..Call::default() };
        self.holds(read.dimension == n && again == set, "the file is read as another list", &call);
        let bytes = self.written(read);
        self.holds(bytes == text, "what is read is written as another file", &call);
    }
}

fn pairs_of(requests: &RequestLists) -> PairList {
    requests.rows.iter().copied().zip(requests.columns.iter().copied()).collect()
}

/// A list: written, read back, and written in another order with other repeats.
fn compare_list(n: usize, trip: &mut Trip) {
    let pairs = written_pairs(n, trip.random);
    let text = trip.written(lists_of(n, &pairs));
    trip.goes_round(n, &pairs, &text);
    let other = lists_of(n, &repeated(&pairs, trip.random));
    let call = Call { requests: other.clone(), ..Call::default() };
    let bytes = trip.written(other);
    trip.holds(bytes == text, "the set in another order is written as another file", &call);
}

/// A file in any form: read, written, and read back.
fn compare_file(n: usize, trip: &mut Trip) {
    let file = sound_file(n, trip.random);
    let read = trip.read(&file);
    let (dimension, pairs) = (read.dimension, pairs_of(&read));
    let canonical = matrix_market::written(dimension, &read.rows, &read.columns);
    let call = Call { text: List::new(&file), requests: read.clone(), ..Call::default() };
    let text = trip.written(read);
    trip.holds(dimension == n && text == canonical, "the file is written as another", &call);
    trip.goes_round(n, &pairs, &text);
}

/// The cases of a seed.
pub fn compare_round_trips(seed: u64, tally: &mut Tally) {
    let mut random = Random::named(seed, "files");
    let before = tally.unexpected;
    for number in 0..CASES {
        for (kind, compare) in [("list", compare_list as fn(usize, &mut Trip)), ("file", compare_file)] {
            let n = some_dimension(&mut random);
            let case = Block::new(&format!("{kind}-{number}"), kind);
            let mut trip = Trip { case, calls: 0, random: &mut random, tally };
            compare(n, &mut trip);
            let Trip { case, calls, .. } = trip;
            tally.compared("files", &case, calls);
        }
    }
    println!("files of seed {seed}: {} cases, {} unexpected differences", 2 * CASES, tally.unexpected - before);
}
