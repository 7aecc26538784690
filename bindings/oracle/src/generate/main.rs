//! `generate SET [SEED]` writes the cases of a set, `generate sets` the names of the sets. The same seed gives the same
//! bytes.

mod body;
mod entries;
mod exact;
mod grids;
mod limits;
mod lists;
mod refused;
mod small;
mod values;
mod variances;
mod wide;
mod writer;

use cases::random::Random;
use std::io::{self, ErrorKind};
use std::process::ExitCode;
use writer::Writer;

type Set = (&'static str, fn(&mut Writer) -> io::Result<()>);

/// A set's place goes into its seed.
const SETS: [Set; 20] = [
    ("worked", small::worked),
    ("tiny", small::tiny),
    ("random", entries::random),
    ("special", entries::special),
    ("exact", exact::exact),
    ("dyadic", exact::dyadic),
    ("grid", grids::small),
    ("large", grids::large),
    ("default", variances::default_limit),
    ("diagorig", variances::original_diagonal),
    ("opvar", variances::operator),
    ("pattern", lists::patterns),
    ("perm", lists::permutations),
    ("floor", lists::floors),
    ("least", lists::least_values),
    ("lookup", lists::lookups),
    ("refuse", refused::refused),
    ("timing", grids::timing),
    ("huge", grids::huge),
    ("wide", wide::wide),
];

fn main() -> ExitCode {
    let arguments: Vec<String> = std::env::args().skip(1).collect();
    let words: Vec<&str> = arguments.iter().map(String::as_str).collect();
    let (name, seed) = match words[..] {
        ["sets"] => {
            SETS.iter().for_each(|set| println!("{}", set.0));
            return ExitCode::SUCCESS;
        }
        [name] => (name, Some(1)),
        [name, seed] => (name, seed.parse::<u64>().ok()),
        _ => ("", None),
    };
    let (Some(place), Some(seed)) = (SETS.iter().position(|set| set.0 == name), seed) else {
        let names: Vec<&str> = SETS.iter().map(|set| set.0).collect();
        eprintln!("usage: generate SET [SEED], or generate sets; SET is one of: {}", names.join(" "));
        return ExitCode::from(2);
    };
    let random = Random::new(seed.wrapping_mul(1000).wrapping_add(place as u64));
    let mut writer = Writer::new(name, random);
    match (SETS[place].1)(&mut writer).and_then(|()| writer.finish()) {
        Err(error) if error.kind() != ErrorKind::BrokenPipe => {
            eprintln!("generate: {error}");
            ExitCode::FAILURE
        }
        _ => ExitCode::SUCCESS,
    }
}
