//! Where the cells of a factor are on a grid: at all of its cells, or at the water of a mask.

use crate::cell_lists::{index, is_comment};
use crate::counted::counted;
use crate::failure::Failure;
use crate::files;
use crate::grid::Grid;
use crate::lines::Lines;
use crate::map::Placed;
use crate::options::Options;
use std::collections::BTreeMap;
use std::path::Path;

pub const HELP: &str = "  --mask FILE
      which cells of the map are water. The factor's cells are these alone, and
      the rest is drawn as land. A row of digits for each row of the map, from
      the top: 1 is water, 0 is land, with or without blanks between. Water is
      numbered row by row; --grid may be left out, or else agrees. Or, beside
      --grid, a list with the column and the row of each cell, from 1, in the
      order of the cells. A file with two numbers on every line is a list,
      unless all of them are 0 or 1. The factor must have as many cells as there
      is water, and the map has up to 1,048,576 with the land. With --csv a cell
      has its column and row too, and behind covered the deviation, the square
      root of the variance, which is empty where that is below 0 or not finite
";

/// The most cells that a grid has beside a mask.
const MAX_CELLS: usize = 1 << 20;

/// The words of a line, with its number.
type Line<'a> = (usize, Vec<&'a str>);

/// That a grid or a mask stands beside what shows places.
pub fn check(options: &Options) -> Result<(), Failure> {
    if options.draws() || (&options.grid, &options.mask) == (&None, &None) {
        return Ok(());
    }
    if options.mask.is_none() {
        return Err(Failure::usage("--grid needs --svg or --html"));
    }
    if !options.csv {
        return Err(Failure::usage("--mask needs --svg, --html or --csv"));
    }
    let others = [
        ("--entries", options.entries),
        ("--why", options.why.is_some()),
        ("--track", options.track.is_some()),
    ];
    match others.iter().find(|(_, given)| *given) {
        Some((other, _)) => Err(Failure::usage(format!(
            "--mask goes with {other} only where a map is drawn"
        ))),
        None => Ok(()),
    }
}

/// Where the factor's n cells are, if a grid or a mask says it.
pub fn placed(options: &Options, n: usize) -> Result<Option<Placed>, Failure> {
    let Some(file) = &options.mask else {
        return match options.grid {
            Some(grid) if grid.cells() != Some(n) => Err(Failure::usage(format!(
                "--grid {grid} does not have the factor's {n} cells"
            ))),
            Some(grid) => Ok(Some(Placed {
                grid,
                cells: (0..n).collect(),
            })),
            None => Ok(None),
        };
    };
    let placed = read(file, options.grid)?;
    let water = placed.cells.len();
    if water != n {
        return Err(Failure::in_file(
            file,
            format!(
                "the mask has {} of water, the factor {}",
                counted(water, "cell", "cells"),
                counted(n, "cell", "cells")
            ),
        ));
    }
    Ok(Some(placed))
}

fn read(file: &Path, grid: Option<Grid>) -> Result<Placed, Failure> {
    let text = files::read_apart(file)?;
    let mut lines = Lines::new(file, &text);
    let mut found = Vec::new();
    while let Some((number, line)) = lines.next_filled(is_comment)? {
        found.push((number, line.split_whitespace().collect()));
    }
    let is_digit = |word: &&str| ["0", "1"].contains(word);
    let two_words = found.iter().all(|(_, words): &Line<'_>| words.len() == 2);
    let digits = found.iter().all(|(_, words)| words.iter().all(is_digit));
    if two_words && !digits {
        list(file, &found, grid)
    } else {
        rows(file, &found, grid)
    }
}

/// The water of rows of 0 and 1.
fn rows(file: &Path, lines: &[Line<'_>], given: Option<Grid>) -> Result<Placed, Failure> {
    let mut width = None;
    let mut cells = Vec::new();
    let mut count = 0;
    for (number, words) in lines {
        let before = count;
        for digit in words.iter().flat_map(|word| word.chars()) {
            match digit {
                '0' => {}
                '1' => cells.push(count),
                _ => {
                    return Err(Failure::at_line(
                        file,
                        *number,
                        format!(
                            "{digit:?} is neither 0 nor 1: a mask has rows of 0 and 1, or two numbers on every line"
                        ),
                    ))
                }
            }
            count += 1;
        }
        let (here, first) = (count - before, *width.get_or_insert(count));
        if here != first {
            return Err(Failure::at_line(
                file,
                *number,
                format!("the row has {}, the first row {first}", counted(here, "cell", "cells")),
            ));
        }
    }
    let Some(width) = width else {
        return Err(Failure::in_file(file, "the mask has no rows"));
    };
    if count > MAX_CELLS {
        return Err(Failure::in_file(
            file,
            format!("the mask has {count} cells, which is more than {MAX_CELLS}"),
        ));
    }
    let grid = Grid {
        width,
        height: lines.len(),
    };
    match given {
        Some(given) if given != grid => Err(Failure::usage(format!(
            "--grid {given} is not the {grid} of the mask {}",
            file.display()
        ))),
        _ => Ok(Placed { grid, cells }),
    }
}

/// The cells of a list of columns and rows.
fn list(file: &Path, lines: &[Line<'_>], given: Option<Grid>) -> Result<Placed, Failure> {
    let Some(grid) = given else {
        return Err(Failure::usage(format!(
            "--mask {} is a list of cells, which needs --grid",
            file.display()
        )));
    };
    if grid.cells().is_none_or(|cells| cells > MAX_CELLS) {
        return Err(Failure::usage(format!("--grid {grid} has more than {MAX_CELLS} cells")));
    }
    let mut seen = BTreeMap::new();
    let mut cells = Vec::new();
    for (line, words) in lines {
        let mut place = [0; 2];
        let sizes = [("column", grid.width), ("row", grid.height)];
        for ((place, word), (name, size)) in place.iter_mut().zip(words).zip(sizes) {
            *place = index(file, *line, word)?;
            if *place >= size {
                let reason = format!("{name} {} is not from 1 to {size}", *place + 1);
                return Err(Failure::at_line(file, *line, reason));
            }
        }
        let [column, row] = place;
        let cell = row * grid.width + column;
        if let Some(first) = seen.insert(cell, *line) {
            return Err(Failure::at_line(
                file,
                *line,
                format!(
                    "the cell of column {} and row {} is there twice, first in line {first}",
                    column + 1,
                    row + 1
                ),
            ));
        }
        cells.push(cell);
    }
    Ok(Placed { grid, cells })
}
