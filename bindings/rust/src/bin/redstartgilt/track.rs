//! The variance of each run of consecutive cells along a track.

use crate::cell_lists;
use crate::failure::{written, Failure};
use crate::options::Options;
use crate::report;
use crate::wholes::Whole;
use redstartgilt::lent::{self, EntryLists};
use redstartgilt::{Error, SparseSymmetricPattern, WholeSelectedInverse};
use std::io::Write;
use std::path::Path;

/// The widest run.
const WIDEST: usize = 1024;
/// The largest size of an entry.
const LARGEST_ENTRY: u64 = 1 << 40;

/// A track with the variance of each of its runs.
#[derive(Debug, Clone, PartialEq)]
pub struct Track {
    /// In the order of the track, counted from 0.
    pub cells: Vec<usize>,
    pub width: usize,
    /// One for each run; there is at least one.
    pub variances: Vec<i64>,
}

impl Track {
    /// The first run of the largest variance.
    pub fn largest(&self) -> usize {
        let runs = self.variances.iter().enumerate();
        let largest = runs.max_by_key(|(run, variance)| (**variance, std::cmp::Reverse(*run)));
        largest.expect("there is a run").0
    }

    /// The first and the last cell of a run.
    pub fn ends(&self, run: usize) -> (usize, usize) {
        (self.cells[run], self.cells[run + self.width - 1])
    }

    /// How many runs there are, and which has the largest variance.
    pub fn summary(&self) -> String {
        let runs = self.variances.len();
        let largest = self.largest();
        let (first, last) = self.ends(largest);
        format!(
            "{runs} {} of {} {}, the largest variance {}: run {}, from cell {} to cell {}",
            if runs == 1 { "run" } else { "runs" },
            self.width,
            if self.width == 1 { "cell" } else { "cells" },
            self.variances[largest],
            largest + 1,
            first + 1,
            last + 1
        )
    }

    /// The runs that begin at each of so many cells, in words; none for a cell that is not on the track.
    pub fn runs_of_cells(&self, cells: usize) -> Vec<Option<String>> {
        let mut found = vec![None; cells];
        for (place, cell) in self.cells.iter().enumerate() {
            let words: &mut String = found[*cell].get_or_insert_default();
            if let Some(variance) = self.variances.get(place) {
                let gap = if words.is_empty() { "" } else { "; " };
                words.push_str(&format!("{gap}run {}, variance {variance}", place + 1));
            }
        }
        for words in found.iter_mut().flatten() {
            if words.is_empty() {
                words.push_str("on the track, no run begins here");
            }
        }
        found
    }
}

/// Prints the variance of each run of a file's track, over the entries of all pairs of cells of one run, and draws the track
/// where a map is asked for.
pub fn run(
    output: &mut impl Write,
    whole: &Whole<'_>,
    (file, width): (&Path, usize),
    options: &Options,
) -> Result<(), Failure> {
    let cells = checked(file, cell_lists::track(file)?, width, whole.dimension())?;
    let places = cells.iter().map(|cell| whole.place(*cell)).collect::<Vec<_>>();
    let mut requested = SparseSymmetricPattern::new(whole.dimension());
    for (one, other) in pairs(&places, width) {
        requested
            .insert(one, other)
            .map_err(|error| Failure::refused_at(file.display(), error))?;
    }
    let (inverse, diagnostics) = whole.select(&requested, options)?;
    let variances = inverse
        .track_variances(&places, width)
        .map_err(|error| refused_entry(file, whole, &inverse, &places, width, error))?;
    let track = Track {
        cells,
        width,
        variances,
    };
    whole.draw(&inverse, &diagnostics, Some((file, &track)), options)?;
    written(report::heading(output, options))?;
    written(report::track(output, options.csv, &diagnostics, &track))
}

/// The pairs of cells of one run.
fn pairs(cells: &[usize], width: usize) -> impl Iterator<Item = (usize, usize)> + '_ {
    let run = move |place: usize| &cells[place..cells.len().min(place + width)];
    (0..cells.len()).flat_map(move |place| run(place).iter().map(move |other| (cells[place], *other)))
}

/// The cells of a track whose width the library accepts; over a result without entries it refuses every other track as not
/// covered. A cell outside is never covered.
fn checked(file: &Path, track: Vec<(usize, usize)>, width: usize, cells: usize) -> Result<Vec<usize>, Failure> {
    let entries = EntryLists {
        starts: &vec![0; cells + 1],
        rows: &[],
        values: &[],
    };
    let refused = lent::track_variances_whole(entries, &vec![0; track.len()], width, &mut []);
    if let Err(error) = refused {
        if error != Error::NotCovered {
            let reason = match track.len() {
                0 => "the track has no cells".to_string(),
                most => format!("the width {width} is not from 1 to {}", most.min(WIDEST)),
            };
            return Err(Failure::refused_because(file.display(), error, reason));
        }
    }
    if let Some((line, cell)) = track.iter().find(|(_, cell)| *cell >= cells) {
        return Err(Failure::refused_because(
            format_args!("{}:{line}", file.display()),
            Error::NotCovered,
            format_args!("cell {} is not from 1 to {cells}", cell + 1),
        ));
    }
    Ok(track.into_iter().map(|(_, cell)| cell).collect())
}

/// The refusal of a track over the entries, with the entry that is too large.
fn refused_entry(
    file: &Path,
    whole: &Whole<'_>,
    inverse: &WholeSelectedInverse,
    places: &[usize],
    width: usize,
    error: Error,
) -> Failure {
    let cell = |place: usize| whole.permutation.perm_to_orig[place] + 1;
    for (one, other) in pairs(places, width) {
        let entry = inverse.get(one, other);
        if let Some(entry) = entry.filter(|entry| entry.unsigned_abs() > LARGEST_ENTRY) {
            let reason = format_args!(
                "the entry of cells {} and {} is {entry}, which is beyond 2^40 in size",
                cell(one),
                cell(other)
            );
            return Failure::refused_because(file.display(), error, reason);
        }
    }
    Failure::refused_at(file.display(), error)
}

#[cfg(test)]
mod tests {
    use super::{pairs, Track};

    #[test]
    fn the_runs_of_a_track() {
        let track = Track {
            cells: vec![4, 2, 4, 0],
            width: 2,
            variances: vec![3, 7, 7],
        };
        assert_eq!((track.largest(), track.ends(1)), (1, (2, 4)));
        assert_eq!(
            track.summary(),
            "3 runs of 2 cells, the largest variance 7: run 2, from cell 3 to cell 5"
        );
        let words = track.runs_of_cells(5);
        assert_eq!(words[0].as_deref(), Some("on the track, no run begins here"));
        assert_eq!(words[1], None);
        assert_eq!(words[4].as_deref(), Some("run 1, variance 3; run 3, variance 7"));
        let found = pairs(&[4, 2, 0], 2).collect::<Vec<_>>();
        assert_eq!(found, [(4, 4), (4, 2), (2, 2), (2, 0), (0, 0)]);
    }
}
