//! Bounds on the variances of weighted sums of cells whose weights are known within ranges.

use crate::cell_lists::{self, Range};
use crate::failure::{written, Failure};
use crate::options::Options;
use crate::report;
use crate::wholes::Whole;
use redstartgilt::lent::{self, EntryLists};
use redstartgilt::{Error, SparseSymmetricPattern, WholeSelectedInverse};
use std::io::Write;
use std::path::Path;

/// The most cells of a row.
const MOST_CELLS: usize = 64;
/// The largest size of a weight.
const LARGEST_WEIGHT: u64 = 1024;
/// The largest size of an entry.
const LARGEST_ENTRY: u64 = 1 << 30;

/// Prints the bounds of each row of a file, over the entries of all pairs of its cells.
pub fn run(output: &mut impl Write, whole: &Whole<'_>, file: &Path, options: &Options) -> Result<(), Failure> {
    let rows = cell_lists::ranges(file)?;
    let mut requested = SparseSymmetricPattern::new(whole.dimension());
    for (number, row) in &rows {
        check(file, whole, *number, row)?;
        for (place, one) in row.iter().enumerate() {
            for other in &row[..=place] {
                requested
                    .insert(whole.place(one.cell), whole.place(other.cell))
                    .map_err(|error| Failure::refused_at(file.display(), error))?;
            }
        }
    }
    let (inverse, diagnostics) = whole.select(&requested, options)?;
    let mut bounds = Vec::new();
    for (number, row) in rows {
        let ranges = row.iter().map(|range| (whole.place(range.cell), range.low, range.high));
        let found = inverse
            .variance_bounds(&ranges.collect::<Vec<_>>())
            .map_err(|error| refused_entry(file, whole, &inverse, number, &row, error))?;
        bounds.push((number, found));
    }
    written(report::bounds(output, options.csv, &diagnostics, &bounds))
}

/// What the library refuses of a row itself, before any entry is computed: over a result without entries every other row is
/// not covered.
fn check(file: &Path, whole: &Whole<'_>, number: usize, row: &[Range]) -> Result<(), Failure> {
    let entries = EntryLists {
        starts: &vec![0; whole.dimension() + 1],
        rows: &[],
        values: &[],
    };
    let columns = row.iter().map(|range| u32::try_from(range.cell).unwrap_or(u32::MAX));
    let lows = row.iter().map(|range| range.low).collect::<Vec<_>>();
    let highs = row.iter().map(|range| range.high).collect::<Vec<_>>();
    match lent::variance_bounds_whole(entries, &columns.collect::<Vec<_>>(), &lows, &highs) {
        Ok(_) | Err(Error::NotCovered) => Ok(()),
        Err(error) => Err(refused_row(file, whole.dimension(), number, row, error)),
    }
}

/// The refusal of a row, with what it is about.
fn refused_row(file: &Path, cells: usize, number: usize, row: &[Range], error: Error) -> Failure {
    let number = number + 1;
    let repeats = |(place, range): &(usize, &Range)| row[..*place].iter().any(|other| other.cell == range.cell);
    let is_beyond = |weight: i64| weight.unsigned_abs() > LARGEST_WEIGHT;
    let reason = match error {
        Error::BrokenOperator => row
            .iter()
            .find(|range| range.cell >= cells)
            .map(|range| (range.line, format!("cell {} is not from 1 to {cells}", range.cell + 1)))
            .or_else(|| {
                let (_, range) = row.iter().enumerate().find(repeats)?;
                Some((range.line, format!("row {number} has cell {} twice", range.cell + 1)))
            }),
        Error::BadWeights => row
            .get(MOST_CELLS)
            .map(|range| (range.line, format!("row {number} has more than {MOST_CELLS} cells")))
            .or_else(|| {
                let range = row
                    .iter()
                    .find(|range| range.low > range.high || is_beyond(range.low) || is_beyond(range.high))?;
                let reason = if range.low > range.high {
                    format!("the low weight {} is above the high one, {}", range.low, range.high)
                } else {
                    let weight = if is_beyond(range.low) { range.low } else { range.high };
                    format!("the weight {weight} is beyond 1,024 in size")
                };
                Some((range.line, reason))
            }),
        _ => None,
    };
    match reason {
        Some((line, reason)) => Failure::refused_because(format_args!("{}:{line}", file.display()), error, reason),
        None => Failure::refused_at(file.display(), error),
    }
}

/// The refusal of a row over the entries, with the entry that is too large.
fn refused_entry(
    file: &Path,
    whole: &Whole<'_>,
    inverse: &WholeSelectedInverse,
    number: usize,
    row: &[Range],
    error: Error,
) -> Failure {
    for (place, one) in row.iter().enumerate() {
        for other in &row[..=place] {
            let entry = inverse.get(whole.place(one.cell), whole.place(other.cell));
            if let Some(entry) = entry.filter(|entry| entry.unsigned_abs() > LARGEST_ENTRY) {
                let reason = format_args!(
                    "the entry of cells {} and {}, of row {}, is {entry}, which is beyond 2^30 in size",
                    one.cell + 1,
                    other.cell + 1,
                    number + 1
                );
                return Failure::refused_because(file.display(), error, reason);
            }
        }
    }
    Failure::refused_at(file.display(), error)
}
