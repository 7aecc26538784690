//! Answers cases by the Rust's own functions, which ../../extract.py cuts out of its files into gen/.
//!
//! What is asked of them stands in child modules of `uncertainty`, which see its private columns.

mod types {
    #![allow(dead_code)]
    include!("gen/types.rs");
}

mod linear {
    include!("gen/linear.rs");
}

mod uncertainty {
    #![allow(dead_code)]
    include!("gen/uncertainty.rs");

    #[warn(dead_code)]
    pub mod answers;
    #[warn(dead_code)]
    mod fed;
    #[warn(dead_code)]
    pub mod time;
    #[warn(dead_code)]
    mod told;
}

use std::io;
use std::process::ExitCode;
use uncertainty::{answers, time};

const USAGE: &str = "usage:
  oracle < CASES            the answers
  oracle star               the output of program star
  oracle time RUNS < CASES  of each entries, diagorig or opvar: its name, the median processor time of the call in ms";

/// Whether the answers are as the cases expect; None where the arguments are not understood.
fn run(words: &[&str]) -> Option<io::Result<bool>> {
    match words {
        [] => Some(answers::answer_all()),
        ["star"] => Some(answers::star().map(|()| true)),
        ["time", runs] => {
            let runs = runs.parse().ok().filter(|runs| *runs > 0)?;
            Some(time::time_all(runs).map(|()| true))
        }
        _ => None,
    }
}

fn main() -> ExitCode {
    let arguments: Vec<String> = std::env::args().skip(1).collect();
    let words: Vec<&str> = arguments.iter().map(String::as_str).collect();
    match run(&words) {
        Some(Ok(true)) => ExitCode::SUCCESS,
        Some(Ok(false)) => ExitCode::FAILURE,
        Some(Err(error)) if error.kind() == io::ErrorKind::BrokenPipe => ExitCode::SUCCESS,
        Some(Err(error)) => {
            eprintln!("oracle: {error}");
            ExitCode::FAILURE
        }
        None => {
            eprintln!("{USAGE}");
            ExitCode::from(2)
        }
    }
}
