//! `malformed`: random calls of every function, most of them with something wrong.
//!
//! A call is made from its seed and number alone: sound lists first, then some of them are spoilt, then lists of any
//! length and contents are lent. Reply, every list and every guard word afterwards must be what document 01, or of files,
//! covariances, chains, counted lookups, whole numbers, ranges, tracks, pivots and factors that are not finite document 02,
//! gives; of lookups in well-formed results, what the header says.

use crate::bounds::bounds;
use crate::call::Call;
use crate::function::{Function, FUNCTIONS};
use crate::random::Random;
use crate::reply::Reply;
use crate::rules;
use crate::spoil::random_call;
use redstartgilt::sys;
use std::sync::atomic::{AtomicUsize, Ordering};
use std::time::Duration;

/// A call that takes longer than this ends the run.
const PATIENCE: Duration = Duration::from_secs(600);
/// So many differences are written out.
const SHOWN: usize = 20;

/// How many calls have ended.
static ENDED: AtomicUsize = AtomicUsize::new(0);

/// The highest refusal.
const LAST_REFUSAL: usize = sys::REDSTARTGILT_NO_REQUESTS as usize;

/// The number of calls that did not do as the documents say; calls `first` to `first + count` of a seed, of every
/// function or of one alone.
pub fn malformed(count: usize, seed: u64, first: usize, only: Option<Function>) -> usize {
    std::thread::spawn(watch);
    let mut tally = Tally::default();
    if first == 0 {
        let wanted = |call: &Call| only.is_none_or(|function| function == call.function);
        bounds().into_iter().filter(wanted).for_each(|call| tally.made("bound", call));
        println!("{} calls at the bounds, {} different", tally.calls, tally.different);
    }
    for number in first..first + count {
        let mut random = Random::new(seed.wrapping_mul(0x2545_f491_4f6c_dd1d) ^ number as u64);
        let function = only.unwrap_or(FUNCTIONS[number % FUNCTIONS.len()]);
        let call = random_call(function, &mut random);
        tally.made(&format!("call {number} of seed {seed}"), call);
    }
    tally.report();
    tally.different
}

/// Ends the run when a call does not end.
fn watch() {
    let mut last = usize::MAX;
    loop {
        let now = ENDED.load(Ordering::Relaxed);
        if now == last {
            println!("{now} calls have ended, the next does not");
            std::process::exit(1);
        }
        last = now;
        std::thread::sleep(PATIENCE);
    }
}

struct Tally {
    /// by function: Complete or accepted, ClosureTooLarge, then each refusal
    replies: [[usize; LAST_REFUSAL + 2]; FUNCTIONS.len()],
    calls: usize,
    different: usize,
}

impl Default for Tally {
    fn default() -> Self {
        Self { replies: [[0; LAST_REFUSAL + 2]; FUNCTIONS.len()], calls: 0, different: 0 }
    }
}

impl Tally {
    fn made(&mut self, name: &str, call: Call) {
        let mut made = call.clone();
        let reply = made.make();
        let found = rules::expected(call.clone()).differences(&reply, &made);
        let function = FUNCTIONS.iter().position(|&f| f == call.function).expect("listed");
        self.replies[function][place(&reply)] += 1;
        self.calls += 1;
        ENDED.fetch_add(1, Ordering::Relaxed);
        if !found.is_empty() {
            self.different += 1;
            if self.different <= SHOWN {
                println!("DIFFERENT {name}\n{}\n{}", found.join("\n"), call.told());
            }
        }
    }

    fn report(&self) {
        let numbers: String = (1..=LAST_REFUSAL).map(|k| format!("{k:>7}")).collect();
        println!("{:<51} {:>8} {:>8} {numbers}", "function", "accepted", "limit");
        let called = |counts: &[usize]| counts.iter().any(|&count| count > 0);
        for (function, counts) in FUNCTIONS.iter().zip(&self.replies).filter(|(_, counts)| called(&counts[..])) {
            let numbers: String = counts[2..].iter().map(|k| format!("{k:>7}")).collect();
            println!("{:<51} {:>8} {:>8} {numbers}", function.name(), counts[0], counts[1]);
        }
        println!("accepted: or Complete; limit: ClosureTooLarge; then the refusals by number");
        println!("{} calls, {} different", self.calls, self.different);
    }
}

fn place(reply: &Reply) -> usize {
    match reply.refusal {
        0 => usize::from(reply.status == sys::REDSTARTGILT_CLOSURE_TOO_LARGE),
        number => (number as usize).min(LAST_REFUSAL) + 1,
    }
}
