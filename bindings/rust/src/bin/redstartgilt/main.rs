//! Variances from a factor in a file, and a picture of them. `--help` says how it is used.

mod calibration;
mod cell_lists;
mod checked;
mod cholmod;
mod colours;
mod counted;
mod demo;
mod demo_files;
mod exact;
mod failure;
mod files;
mod form;
mod grid;
mod help;
mod html;
mod lines;
mod map;
mod markup;
mod mask;
mod matrix_file;
mod matrix_market;
mod operators;
mod options;
mod order;
mod pivots;
mod precision;
mod ranges;
mod report;
mod scale;
mod svg;
mod track;
mod track_line;
mod trail;
mod wholes;
mod why;

use checked::Checked;
use exact::Exact;
use failure::{written, Failure};
use map::{Map, Placed};
use options::{Command, Options};
use redstartgilt::{
    selected_inverse_diag_with_diagnostics, selected_inverse_diag_with_limit, selected_inverse_entries,
    selected_inverse_entries_with_limit, CholeskyFactor, Error, Permutation, SelectedInverseDiagnostics,
    SelectedInverseEntries, SparseSymmetricPattern,
};
use report::Value;
use std::borrow::Cow;
use std::fmt::Display;
use std::io::{self, BufWriter, Write};
use std::path::Path;
use std::process::ExitCode;
use why::Why;

fn main() -> ExitCode {
    match options::read(std::env::args_os().skip(1)).and_then(run) {
        Ok(()) => ExitCode::SUCCESS,
        Err(failure) => {
            eprintln!("redstartgilt: {}", failure.message);
            ExitCode::from(failure.status)
        }
    }
}

fn run(command: Command) -> Result<(), Failure> {
    let mut output: Box<dyn Write> = match &command {
        Command::Run(options) if options.output_is_a_file() => Box::new(io::sink()),
        _ => Box::new(BufWriter::new(io::stdout().lock())),
    };
    answer(&mut output, command)?;
    written(output.flush())
}

fn answer(output: &mut impl Write, command: Command) -> Result<(), Failure> {
    match command {
        Command::Help => written(write!(output, "{}", help::text())),
        Command::Version => written(writeln!(output, "redstartgilt {}", env!("CARGO_PKG_VERSION"))),
        Command::Run(options) => match options.factor.as_ref().or(options.precision.as_ref()) {
            None => demo::run(output, &options),
            Some(file) => run_factor(output, file, &options),
        },
    }
}

/// The variance of each cell that has one, in the order of the cells; and the entries, where they are asked for.
struct Found<V = f64> {
    diagnostics: SelectedInverseDiagnostics,
    variances: Vec<Option<V>>,
    entries: Vec<(usize, usize, V)>,
}

/// A factor as it is handed over.
struct Handed {
    factor: CholeskyFactor,
    placed: Option<Placed>,
    checked: Checked,
}

/// The factor of a file, with its order. Where none is given it is made of Q, whose file this then is.
fn read_factor(file: &Path, options: &Options) -> Result<Handed, Failure> {
    if options.factor.is_none() {
        let precision = precision::read(file)?;
        let placed = mask::placed(options, precision.dimension())?;
        let factor = cholmod::factor(file, &precision)?;
        let checked = precision::against(options, file, &precision, Path::new("CHOLMOD's factor"), &factor)?;
        return Ok(Handed {
            factor,
            placed,
            checked,
        });
    }
    let (factor, matrix) = matrix_market::factor(file)?;
    let n = factor.dimension();
    let placed = mask::placed(options, n)?;
    let factor = match order::read(options, n)? {
        Some(order) => factor
            .with_permutation(order)
            .map_err(|error| Failure::refused_at(file.display(), error))?,
        None => factor,
    };
    form::check(options, file, &matrix)?;
    let checked = precision::check(options, file, &factor)?;
    Ok(Handed {
        factor,
        placed,
        checked,
    })
}

fn run_factor(output: &mut impl Write, file: &Path, options: &Options) -> Result<(), Failure> {
    if options.whole {
        return wholes::run(output, file, options);
    }
    if let Some(list) = &options.pivots {
        return pivots::run(output, file, list, options);
    }
    let Handed {
        factor,
        placed,
        checked,
    } = read_factor(file, options)?;
    let output = &mut checked.output(output, options.csv);
    if let Some(operator) = &options.operator {
        return operators::run(output, file, &factor, operator, options);
    }
    let requested = requested(&factor.permutation(), options)?;
    let why = options
        .why
        .map(|pair| Why::find(file.display(), &factor, &requested, pair));
    let why = why.transpose()?;
    if let (Some(why), None) = (&why, &placed) {
        written(report::heading(output, options))?;
        return written(report::why(output, options.csv, why, None));
    }
    let found = find(file.display(), &factor, &requested, options)?;
    let scale = options
        .exact
        .map(|scale| exact::check(file.display(), &factor, &requested, scale));
    let scale = scale.transpose()?;
    draw(options, file, &found, why.as_ref(), placed.as_ref(), checked)?;
    matrix_file::write(options, &found)?;
    written(report::heading(output, options))?;
    match (&why, scale) {
        (Some(why), _) => written(report::why(output, options.csv, why, placed.as_ref())),
        (None, Some(scale)) => {
            if !options.csv {
                written(writeln!(output, "{}", exact::yes(scale)))?;
            }
            print(output, options, found.exact(), placed.as_ref())
        }
        (None, None) => print(output, options, found, placed.as_ref()),
    }
}

impl Found {
    /// The same, of values that are exact.
    fn exact(self) -> Found<Exact> {
        let entries = self.entries.into_iter();
        Found {
            diagnostics: self.diagnostics,
            variances: self.variances.into_iter().map(|variance| variance.map(Exact)).collect(),
            entries: entries
                .map(|(row, column, value)| (row, column, Exact(value)))
                .collect(),
        }
    }
}

/// Writes a map of the variances, where that is asked for.
fn draw(
    options: &Options,
    file: &Path,
    found: &Found,
    why: Option<&Why>,
    placed: Option<&Placed>,
    checked: Checked,
) -> Result<(), Failure> {
    let Some(placed) = placed else {
        return Ok(());
    };
    let title = match options.exact {
        Some(_) => format!("Exact variances of {}", name_of(file)),
        None => format!("Variances of {}", name_of(file)),
    };
    let map = Map {
        title: &colours::title(options, title, options.exact.is_some()),
        titled: options.title.is_some(),
        unit: options.unit.as_deref(),
        cells: &placed.map_cells(found.variances.iter().copied()),
        placed,
        colours: options.colours,
        why,
        track: None,
        diagnostics: &found.diagnostics,
        checked,
    };
    write_map(options, &map)
}

/// A file's name without its folder.
fn name_of(file: &Path) -> Cow<'_, str> {
    file.file_name().unwrap_or(file.as_os_str()).to_string_lossy()
}

/// Prints the variances, or the entries where they are asked for.
fn print<V: Value>(
    output: &mut impl Write,
    options: &Options,
    found: Found<V>,
    placed: Option<&Placed>,
) -> Result<(), Failure> {
    // With a mask alone, as a grid's cells go row by row.
    let placed = placed.filter(|_| options.mask.is_some());
    written(match placed {
        _ if options.entries => report::entries(output, options.csv, &found.diagnostics, found.entries.into_iter()),
        Some(placed) if options.csv => report::placed_csv(output, &found.variances, placed),
        _ => report::variances(output, options.csv, &found.diagnostics, &found.variances),
    })
}

/// Writes the map to the files that are asked for.
fn write_map(options: &Options, map: &Map<'_>) -> Result<(), Failure> {
    for (file, draw) in [
        (&options.svg, svg::draw as fn(&Map<'_>) -> String),
        (&options.html, html::page),
    ] {
        if let Some(file) = file {
            files::write(file, draw(map))?;
        }
    }
    Ok(())
}

/// The pairs that the options ask for, in the factor's order; written to a file where that is asked for.
fn requested(permutation: &Permutation, options: &Options) -> Result<SparseSymmetricPattern, Failure> {
    let n = permutation.dimension();
    let requested = match &options.requests {
        Some(file) => cell_lists::requests(file, n, permutation)?,
        None => SparseSymmetricPattern::diagonal(n),
    };
    if let Some(file) = &options.write_requests {
        cell_lists::write_requests(file, &requested, permutation)?;
    }
    Ok(requested)
}

/// The answer to what the options ask of a factor; `place` is for messages.
fn find(
    place: impl Display,
    factor: &CholeskyFactor,
    requested: &SparseSymmetricPattern,
    options: &Options,
) -> Result<Found, Failure> {
    let refused = |error| Failure::refused_at(&place, error);
    if options.requests.is_none() && !options.wants_entries() {
        return all_variances(factor, options.limit).map_err(|error| match (error, options.limit) {
            (Error::NotCovered, Some(limit)) => Failure::too_many_pairs(limit),
            _ => refused(error),
        });
    }
    let selected = match options.limit {
        Some(limit) => selected_inverse_entries_with_limit(factor, requested, limit),
        None => selected_inverse_entries(factor, requested),
    }
    .map_err(refused)?;
    let reordered = |diagonal: &[Option<f64>]| factor.permute_factor_to_original_marked(diagonal);
    found(selected, requested, &factor.permutation(), reordered, options, refused)
}

/// An answer in the order of the cells, in which `reordered` puts a diagonal.
fn found(
    selected: SelectedInverseEntries,
    requested: &SparseSymmetricPattern,
    permutation: &Permutation,
    reordered: impl Fn(&[Option<f64>]) -> Result<Vec<Option<f64>>, Error>,
    options: &Options,
    refused: impl Fn(Error) -> Failure,
) -> Result<Found, Failure> {
    let Some(inverse) = selected.inverse else {
        return Err(Failure::too_many_pairs(selected.diagnostics.closure_limit));
    };
    Ok(Found {
        diagnostics: selected.diagnostics,
        variances: reordered(&inverse.diag()).map_err(refused)?,
        entries: wanted_entries(inverse.entries(), requested, permutation, options),
    })
}

fn all_variances(factor: &CholeskyFactor, limit: Option<usize>) -> Result<Found, Error> {
    let result = match limit {
        Some(limit) => selected_inverse_diag_with_limit(factor, limit)?,
        None => selected_inverse_diag_with_diagnostics(factor)?,
    };
    Ok(Found {
        diagnostics: result.diagnostics,
        variances: result.estimate.values.into_iter().map(Some).collect(),
        entries: Vec::new(),
    })
}

/// The entries that the options ask for, in the order of the cells, row ≥ column, by column then row.
fn wanted_entries<V>(
    entries: impl Iterator<Item = (usize, usize, V)>,
    requested: &SparseSymmetricPattern,
    permutation: &Permutation,
    options: &Options,
) -> Vec<(usize, usize, V)> {
    if !options.wants_entries() {
        return Vec::new();
    }
    let cell = |place: usize| permutation.perm_to_orig[place];
    let mut entries = entries
        .filter(|(row, column, _)| !options.only_requested || requested.contains(*row, *column))
        .map(|(row, column, value)| {
            let (one, other) = (cell(row), cell(column));
            (one.max(other), one.min(other), value)
        })
        .collect::<Vec<_>>();
    entries.sort_by_key(|(row, column, _)| (*column, *row));
    entries
}
