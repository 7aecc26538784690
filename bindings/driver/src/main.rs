//! The library's driver: comparison with the Rust's functions, malformed calls, benchmark.

mod benchmark;
mod big;
mod bounds;
mod call;
mod chains;
mod compare;
mod engines;
mod exactness;
mod expected;
mod families;
mod faults;
mod files;
mod function;
mod grid;
mod ldl;
mod ldl_cases;
mod ldl_factors;
mod ldl_faults;
mod ldl_rows;
mod lend;
mod list;
mod lookups;
mod malformed;
mod matrix_market;
mod multiple_cases;
mod multiples;
mod partner;
mod random;
mod ranges;
mod reading;
mod refusals;
mod reply;
mod round_trips;
mod rules;
mod sound;
mod spoil;
mod subjects;
mod text;
mod tracks;
mod variance_cases;
mod variance_rows;
mod variances;
mod whole;
mod whole_cases;
mod whole_factors;
mod whole_results;
mod whole_rows;
mod writing;
mod written_lists;

use function::FUNCTIONS;
use std::path::Path;
use std::process::ExitCode;

const USAGE: &str = "usage:
  driver compare ORACLE_FOLDER [SEED..]            every set but huge with each seed, 1 7 11 where none is given
  driver compare ORACLE_FOLDER --huge              the set huge
  driver compare-variances [SEED..]                the set of rows and tracks over results alone, which needs no oracle
  driver compare-multiples [SEED..]                the set of the exact case beyond unit diagonals alone, which needs none
  driver compare-ldl [SEED..]                      the set of unit lower factors with pivots alone, which needs no oracle
  driver compare-export FOLDER [CSV]               a factor with pivots made by bindings/partner, beside a dense inverse;
                                                   CSV has the variances that the command printed of it
  driver compare-files [SEED..]                    the set of files written and read alone, which needs no oracle
  driver malformed [COUNT [SEED [FIRST]]] [--only FUNCTION] [--bare]
                                                   random calls, 1,000,000 where no number is given, from call FIRST on;
                                                   with --only of one function, named as in the header without
                                                   redstartgilt_; with --bare no guard words stand around the lists
  driver benchmark ORACLE_FOLDER [RUNS]            medians of RUNS runs, 15 where none is given
  driver benchmark-covariances ORACLE_FOLDER [RUNS]
                                                   the part of it that has covariances
  driver benchmark-chains ORACLE_FOLDER [RUNS]     the part of it that has chains
  driver benchmark-patterns ORACLE_FOLDER [RUNS]   the part of it that has pattern lists
  driver benchmark-wholes ORACLE_FOLDER [RUNS]     the part of it that has the whole-number engine
  driver benchmark-ldl [RUNS]                      the part of it that has factors with pivots, which needs no oracle
  driver benchmark-variances [RUNS]                the part of it that has bounds and tracks, which needs no oracle
  driver benchmark-lookups [RUNS]                  the part of it that looks up entries, which needs no oracle
  driver benchmark-files [RUNS]                    the part of it that reads and writes files, which needs no oracle
  driver profile ORACLE_FOLDER CASE RUNS           one case of the benchmark alone, for a profiler; of the whole-number
                                                   engine's rows whole:ROW, and float:ROW for the same in floats;
                                                   of those with pivots ldl:ROW, and own:ROW for our own family
ORACLE_FOLDER has the programs `generate` and `oracle` of bindings/oracle.";

fn main() -> ExitCode {
    let args: Vec<String> = std::env::args().skip(1).collect();
    let words: Vec<&str> = args.iter().map(String::as_str).collect();
    match run(&words) {
        Some(Ok(0)) => ExitCode::SUCCESS,
        Some(Ok(_)) => ExitCode::FAILURE,
        Some(Err(error)) => {
            eprintln!("driver: {error}");
            ExitCode::FAILURE
        }
        None => {
            eprintln!("{USAGE}");
            ExitCode::from(2)
        }
    }
}

/// The number of differences; None where the arguments are not understood.
fn run(words: &[&str]) -> Option<std::io::Result<usize>> {
    if let ["compare"
    | "benchmark"
    | "benchmark-covariances"
    | "benchmark-chains"
    | "benchmark-patterns"
    | "benchmark-wholes"
    | "profile", folder, ..] = words
    {
        if let Err(error) = compare::oracle_is_there(Path::new(folder)) {
            return Some(Err(error));
        }
    }
    match words {
        ["compare", folder, "--huge"] => Some(compare::compare(Path::new(folder), &[], true)),
        ["compare", folder, seeds @ ..] => {
            let seeds: Vec<u64> = seeds.iter().map(|s| s.parse().ok()).collect::<Option<_>>()?;
            Some(compare::compare(Path::new(folder), &seeds, false))
        }
        ["compare-variances", seeds @ ..] => {
            let seeds: Vec<u64> = seeds.iter().map(|s| s.parse().ok()).collect::<Option<_>>()?;
            Some(Ok(compare::compare_variances(&seeds)))
        }
        ["compare-multiples", seeds @ ..] => {
            let seeds: Vec<u64> = seeds.iter().map(|s| s.parse().ok()).collect::<Option<_>>()?;
            Some(Ok(compare::compare_multiples(&seeds)))
        }
        ["compare-ldl", seeds @ ..] => {
            let seeds: Vec<u64> = seeds.iter().map(|s| s.parse().ok()).collect::<Option<_>>()?;
            Some(Ok(compare::compare_ldl(&seeds)))
        }
        ["compare-export", folder, csv @ ..] if csv.len() < 2 => {
            Some(partner::compare_export(Path::new(folder), csv.first().map(Path::new)))
        }
        ["compare-files", seeds @ ..] => {
            let seeds: Vec<u64> = seeds.iter().map(|s| s.parse().ok()).collect::<Option<_>>()?;
            Some(Ok(compare::compare_files(&seeds)))
        }
        ["malformed", rest @ .., "--bare"] => {
            list::leave_out_guards();
            malformed(rest)
        }
        ["malformed", rest @ ..] => malformed(rest),
        ["benchmark", folder, runs @ ..] if runs.len() < 2 => {
            Some(benchmark::benchmark(Path::new(folder), runs_of(runs)?).map(|()| 0))
        }
        ["benchmark-covariances", folder, runs @ ..] if runs.len() < 2 => {
            Some(benchmark::rows_of_covariances(Path::new(folder), runs_of(runs)?).map(|()| 0))
        }
        ["benchmark-chains", folder, runs @ ..] if runs.len() < 2 => {
            Some(benchmark::rows_of_chains(Path::new(folder), runs_of(runs)?).map(|()| 0))
        }
        ["benchmark-patterns", folder, runs @ ..] if runs.len() < 2 => {
            Some(benchmark::rows_of_patterns(Path::new(folder), runs_of(runs)?).map(|()| 0))
        }
        ["benchmark-wholes", folder, runs @ ..] if runs.len() < 2 => {
            Some(whole_rows::rows_of_wholes(Path::new(folder), runs_of(runs)?).map(|()| 0))
        }
        ["benchmark-ldl", runs @ ..] if runs.len() < 2 => Some(ldl_rows::benchmark_ldl(runs_of(runs)?).map(|()| 0)),
        ["benchmark-variances", runs @ ..] if runs.len() < 2 => {
            Some(variance_rows::benchmark_variances(runs_of(runs)?).map(|()| 0))
        }
        ["benchmark-lookups", runs @ ..] if runs.len() < 2 => {
            Some(lookups::benchmark_lookups(runs_of(runs)?).map(|()| 0))
        }
        ["benchmark-files", runs @ ..] if runs.len() < 2 => Some(reading::benchmark_files(runs_of(runs)?).map(|()| 0)),
        ["profile", folder, case, runs] => {
            Some(benchmark::profile(Path::new(folder), case, runs.parse().ok()?).map(|()| 0))
        }
        _ => None,
    }
}

/// 15 where no number is given.
fn runs_of(words: &[&str]) -> Option<usize> {
    words.first().map_or(Some(15), |runs| runs.parse().ok().filter(|&runs| runs > 0))
}

fn malformed(words: &[&str]) -> Option<std::io::Result<usize>> {
    let (words, only) = match words {
        [rest @ .., "--only", name] => (rest, Some(*FUNCTIONS.iter().find(|function| function.name() == *name)?)),
        _ => (words, None),
    };
    let numbers: Vec<usize> = words.iter().map(|s| s.parse().ok()).collect::<Option<_>>()?;
    let number = |at: usize, otherwise| numbers.get(at).copied().unwrap_or(otherwise);
    (numbers.len() <= 3)
        .then(|| Ok(malformed::malformed(number(0, 1_000_000), number(1, 1) as u64, number(2, 0), only)))
}
