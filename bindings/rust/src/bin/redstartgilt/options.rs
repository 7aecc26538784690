//! The words of the command line.

use crate::colours::{self, Colours};
use crate::exact::Scale;
use crate::failure::Failure;
use crate::files::{self, Given, Use};
use crate::grid::Grid;
use crate::mask;
use std::ffi::OsString;
use std::path::PathBuf;

#[derive(Debug, Clone, PartialEq)]
pub struct Options {
    /// `None` with `--demo`, and where Q is to be factorised.
    pub factor: Option<PathBuf>,
    pub requests: Option<PathBuf>,
    pub write_requests: Option<PathBuf>,
    /// The matrix Q.
    pub precision: Option<PathBuf>,
    /// The place of each cell in the factor.
    pub permutation: Option<PathBuf>,
    /// The same by another name.
    pub cell_to_place: Option<PathBuf>,
    /// The cell at each place of the factor.
    pub place_to_cell: Option<PathBuf>,
    pub pivots: Option<PathBuf>,
    pub operator: Option<PathBuf>,
    pub with: Option<PathBuf>,
    pub pairs: Option<PathBuf>,
    pub limit: Option<usize>,
    pub entries: bool,
    pub matrix: Option<PathBuf>,
    pub only_requested: bool,
    pub whole: bool,
    pub exact: Option<Scale>,
    pub ranges: Option<PathBuf>,
    pub track: Option<PathBuf>,
    pub width: Option<usize>,
    /// Two cells, counted from 0.
    pub why: Option<(usize, usize)>,
    pub csv: bool,
    pub svg: Option<PathBuf>,
    pub html: Option<PathBuf>,
    pub grid: Option<Grid>,
    pub mask: Option<PathBuf>,
    pub title: Option<String>,
    /// The unit of a deviation.
    pub unit: Option<String>,
    pub colours: Colours,
    /// With `--demo`, the folder for its files.
    pub write_files: Option<PathBuf>,
    /// All files that are given, in the order of the words.
    pub files: Vec<Given>,
}

impl Options {
    /// Whether a map is asked for.
    pub fn draws(&self) -> bool {
        self.svg.is_some() || self.html.is_some()
    }

    /// Whether a file is written to standard output, so that nothing else is printed there.
    pub fn output_is_a_file(&self) -> bool {
        self.files.iter().any(Given::is_standard_output)
    }

    /// Whether an order is given.
    pub fn has_order(&self) -> bool {
        [&self.permutation, &self.cell_to_place, &self.place_to_cell]
            .iter()
            .any(|list| list.is_some())
    }

    /// Whether entries are wanted, and not variances alone.
    pub fn wants_entries(&self) -> bool {
        self.entries || self.matrix.is_some()
    }
}

#[derive(Debug, Clone, PartialEq)]
pub enum Command {
    Run(Box<Options>),
    Help,
    Version,
}

/// The command that the words after the program's name give.
pub fn read(words: impl IntoIterator<Item = OsString>) -> Result<Command, Failure> {
    let mut options = Options {
        factor: None,
        requests: None,
        write_requests: None,
        precision: None,
        permutation: None,
        cell_to_place: None,
        place_to_cell: None,
        pivots: None,
        operator: None,
        with: None,
        pairs: None,
        limit: None,
        entries: false,
        matrix: None,
        only_requested: false,
        whole: false,
        exact: None,
        ranges: None,
        track: None,
        width: None,
        why: None,
        csv: false,
        svg: None,
        html: None,
        grid: None,
        mask: None,
        title: None,
        unit: None,
        colours: Colours::default(),
        write_files: None,
        files: Vec::new(),
    };
    let mut demo = false;
    let mut names_only = false;
    let mut words = words.into_iter();
    while let Some(word) = words.next() {
        let text = word.to_str().unwrap_or("");
        if names_only || !text.starts_with('-') {
            let file = Given::by_name("FACTOR", word, Use::Read);
            if options.factor.replace(file.path.clone()).is_some() {
                return Err(Failure::usage("more than one factor is given"));
            }
            options.files.push(file);
            continue;
        }
        let (name, joined) = match text.split_once('=') {
            Some((name, value)) => (name, Some(OsString::from(value))),
            None => (text, None),
        };
        let takes = takes(name);
        let mut value = match (takes, joined) {
            (Takes::Nothing, Some(_)) => return Err(Failure::usage(format!("{name} takes no value"))),
            (Takes::Nothing, None) => OsString::new(),
            (_, Some(value)) => value,
            (_, None) => words
                .next()
                .ok_or_else(|| Failure::usage(format!("{name} needs a value")))?,
        };
        let file = match takes {
            Takes::File(usage) => Some(Given::by_name(name, value.clone(), usage)),
            Takes::FileApart(usage) => Some(Given::apart(name, value.clone(), usage)?),
            _ => None,
        };
        if let Some(file) = file {
            value = file.path.clone().into();
            options.files.push(file);
        }
        let twice = match name {
            "--requests" => options.requests.replace(value.into()).is_some(),
            "--write-requests" => options.write_requests.replace(value.into()).is_some(),
            "--precision" => options.precision.replace(value.into()).is_some(),
            "--permutation" => {
                let twice = options.cell_to_place.is_some();
                options.permutation.replace(value.into()).is_some() || twice
            }
            "--cell-to-place" => {
                let twice = options.permutation.is_some();
                options.cell_to_place.replace(value.into()).is_some() || twice
            }
            "--place-to-cell" => options.place_to_cell.replace(value.into()).is_some(),
            "--pivots" => options.pivots.replace(value.into()).is_some(),
            "--operator" => options.operator.replace(value.into()).is_some(),
            "--with" => options.with.replace(value.into()).is_some(),
            "--pairs" => options.pairs.replace(value.into()).is_some(),
            "--limit" => options.limit.replace(number(name, &value)?).is_some(),
            "--exact" => options.exact.replace(scale(&value)?).is_some(),
            "--ranges" => options.ranges.replace(value.into()).is_some(),
            "--track" => options.track.replace(value.into()).is_some(),
            "--width" => options.width.replace(number(name, &value)?).is_some(),
            "--why" => options.why.replace(pair(&value)?).is_some(),
            "--svg" => options.svg.replace(value.into()).is_some(),
            "--html" => options.html.replace(value.into()).is_some(),
            "--grid" => options.grid.replace(grid(&value)?).is_some(),
            "--mask" => options.mask.replace(value.into()).is_some(),
            "--title" => options.title.replace(colours::text(name, &value)?).is_some(),
            "--unit" => options.unit.replace(colours::text(name, &value)?).is_some(),
            "--range" => options.colours.range.replace(colours::range(&value)?).is_some(),
            "--log" => std::mem::replace(&mut options.colours.log, true),
            "--write-files" => options.write_files.replace(value.into()).is_some(),
            "--entries" => std::mem::replace(&mut options.entries, true),
            "--matrix" => options.matrix.replace(value.into()).is_some(),
            "--only-requested" => std::mem::replace(&mut options.only_requested, true),
            "--whole" => std::mem::replace(&mut options.whole, true),
            "--csv" => std::mem::replace(&mut options.csv, true),
            "--demo" => std::mem::replace(&mut demo, true),
            "--" => std::mem::replace(&mut names_only, true),
            "--help" | "-h" => return Ok(Command::Help),
            "--version" | "-V" => return Ok(Command::Version),
            _ => return Err(Failure::usage(format!("there is no option {name}"))),
        };
        if twice {
            return Err(Failure::usage(format!("{name} is given twice")));
        }
    }
    checked(options, demo)
}

/// What stands behind an option.
#[derive(Clone, Copy)]
enum Takes {
    Nothing,
    Value,
    /// A file, by its name.
    File(Use),
    /// A file that is kept apart from the others.
    FileApart(Use),
}

fn takes(name: &str) -> Takes {
    match name {
        "--requests" | "--permutation" | "--pivots" | "--operator" | "--with" | "--pairs" | "--ranges" | "--track" => {
            Takes::File(Use::Read)
        }
        "--write-requests" | "--svg" | "--html" => Takes::File(Use::Written),
        "--precision" | "--cell-to-place" | "--place-to-cell" | "--mask" => Takes::FileApart(Use::Read),
        "--matrix" => Takes::FileApart(Use::Written),
        "--limit" | "--exact" | "--width" | "--why" | "--grid" | "--title" | "--unit" | "--range" | "--write-files" => {
            Takes::Value
        }
        _ => Takes::Nothing,
    }
}

/// That none of the others, each with whether it is given, stands beside an option.
fn alone(name: &str, others: &[(&str, bool)]) -> Result<(), Failure> {
    match others.iter().find(|(_, given)| *given) {
        Some((other, _)) => Err(Failure::usage(format!("{name} does not go with {other}"))),
        None => Ok(()),
    }
}

fn checked(options: Options, demo: bool) -> Result<Command, Failure> {
    if demo {
        let others = [
            ("a factor", options.factor.is_some()),
            ("--precision", options.precision.is_some()),
            ("--permutation", options.permutation.is_some()),
            ("--cell-to-place", options.cell_to_place.is_some()),
            ("--place-to-cell", options.place_to_cell.is_some()),
            ("--pivots", options.pivots.is_some()),
            ("--operator", options.operator.is_some()),
            ("--limit", options.limit.is_some()),
            ("--entries", options.entries),
            ("--whole", options.whole),
            ("--exact", options.exact.is_some()),
            ("--grid", options.grid.is_some()),
            ("--matrix", options.matrix.is_some()),
            ("--mask", options.mask.is_some()),
            ("--unit", options.unit.is_some()),
        ];
        alone("--demo", &others)?;
        if options.write_files.is_some() {
            let others = [
                ("--requests", options.requests.is_some()),
                ("--write-requests", options.write_requests.is_some()),
                ("--why", options.why.is_some()),
                ("--csv", options.csv),
                ("--svg", options.svg.is_some()),
                ("--html", options.html.is_some()),
                ("--title", options.title.is_some()),
            ];
            alone("--write-files", &others)?;
        }
    } else {
        if options.factor.is_none() && options.precision.is_none() {
            return Err(Failure::usage("no factor is given"));
        }
        if options.factor.is_none() {
            let others = [
                ("--permutation", options.permutation.is_some()),
                ("--cell-to-place", options.cell_to_place.is_some()),
                ("--place-to-cell", options.place_to_cell.is_some()),
                ("--pivots", options.pivots.is_some()),
                ("--whole", options.whole),
                ("--exact", options.exact.is_some()),
            ];
            alone("--precision without a factor", &others)?;
        }
        for (name, file) in [("--svg", &options.svg), ("--html", &options.html)] {
            if file.is_some() && options.grid.is_none() && options.mask.is_none() {
                return Err(Failure::usage(format!("{name} needs --grid")));
            }
        }
        if options.write_files.is_some() {
            return Err(Failure::usage("--write-files needs --demo"));
        }
        mask::check(&options)?;
    }
    if options.place_to_cell.is_some() && (options.permutation.is_some() || options.cell_to_place.is_some()) {
        return Err(Failure::usage("--place-to-cell does not go with --cell-to-place"));
    }
    colours::check(&options)?;
    if options.exact.is_some() {
        let others = [
            ("--operator", options.operator.is_some()),
            ("--whole", options.whole),
            ("--pivots", options.pivots.is_some()),
            ("--why", options.why.is_some()),
        ];
        alone("--exact", &others)?;
    }
    if options.pivots.is_some() {
        let others = [
            ("--whole", options.whole),
            ("--operator", options.operator.is_some()),
            ("--why", options.why.is_some()),
        ];
        alone("--pivots", &others)?;
    }
    if options.ranges.is_some() {
        let others = [
            ("--requests", options.requests.is_some()),
            ("--write-requests", options.write_requests.is_some()),
            ("--operator", options.operator.is_some()),
            ("--entries", options.entries),
            ("--why", options.why.is_some()),
            ("--grid", options.grid.is_some()),
            ("--matrix", options.matrix.is_some()),
            ("--mask", options.mask.is_some()),
            ("--title", options.title.is_some()),
            ("--unit", options.unit.is_some()),
        ];
        alone("--ranges", &others)?;
        if !options.whole {
            return Err(Failure::usage("--ranges needs --whole"));
        }
    }
    if options.track.is_some() {
        let others = [
            ("--requests", options.requests.is_some()),
            ("--write-requests", options.write_requests.is_some()),
            ("--ranges", options.ranges.is_some()),
            ("--operator", options.operator.is_some()),
            ("--entries", options.entries),
            ("--why", options.why.is_some()),
            ("--matrix", options.matrix.is_some()),
        ];
        alone("--track", &others)?;
        if !options.whole {
            return Err(Failure::usage("--track needs --whole"));
        }
    }
    if options.track.is_some() != options.width.is_some() {
        return Err(Failure::usage("--track and --width need each other"));
    }
    if options.operator.is_some() {
        let others = [
            ("--requests", options.requests.is_some()),
            ("--write-requests", options.write_requests.is_some()),
            ("--limit", options.limit.is_some()),
            ("--entries", options.entries),
            ("--whole", options.whole),
            ("--why", options.why.is_some()),
            ("--grid", options.grid.is_some()),
            ("--matrix", options.matrix.is_some()),
            ("--mask", options.mask.is_some()),
            ("--title", options.title.is_some()),
            ("--unit", options.unit.is_some()),
        ];
        alone("--operator", &others)?;
    }
    if options.why.is_some() && options.whole {
        return Err(Failure::usage("--why does not go with --whole"));
    }
    if options.why.is_some() && options.entries {
        return Err(Failure::usage("--why does not go with --entries"));
    }
    if options.why.is_some() && options.matrix.is_some() {
        return Err(Failure::usage("--why does not go with --matrix"));
    }
    if options.why.is_some() && options.limit.is_some() && options.svg.is_none() && options.html.is_none() {
        return Err(Failure::usage("--why goes with --limit only where a map is drawn"));
    }
    if options.with.is_some() && options.operator.is_none() {
        return Err(Failure::usage("--with needs --operator"));
    }
    if options.pairs.is_some() && options.with.is_none() {
        return Err(Failure::usage("--pairs needs --with"));
    }
    if options.only_requested && !options.wants_entries() {
        return Err(Failure::usage("--only-requested needs --entries or --matrix"));
    }
    let written = [
        ("--write-requests", &options.write_requests),
        ("--svg", &options.svg),
        ("--html", &options.html),
    ];
    for (place, (name, file)) in written.iter().enumerate() {
        let other = written[place + 1..].iter().find(|(_, other)| other == file);
        if let (Some(_), Some((other, _))) = (file, other) {
            return Err(Failure::usage(format!("{name} and {other} need two files")));
        }
    }
    files::check(&options.files)?;
    Ok(Command::Run(Box::new(options)))
}

fn number(name: &str, value: &OsString) -> Result<usize, Failure> {
    value.to_str().and_then(|text| text.parse().ok()).ok_or_else(|| {
        Failure::usage(format!(
            "{name} needs a whole number up to {}, not {}",
            usize::MAX,
            value.to_string_lossy()
        ))
    })
}

fn scale(value: &OsString) -> Result<Scale, Failure> {
    Scale::read(value).ok_or_else(|| {
        Failure::usage(format!(
            "--exact needs a whole number from 0 to 53, or least, not {}",
            value.to_string_lossy()
        ))
    })
}

/// Two cells as in 5,3, counted from 1.
fn pair(value: &OsString) -> Result<(usize, usize), Failure> {
    let cell = |text: &str| text.trim().parse::<usize>().ok()?.checked_sub(1);
    value
        .to_str()
        .and_then(|text| text.split_once(','))
        .and_then(|(row, column)| Some((cell(row)?, cell(column)?)))
        .ok_or_else(|| {
            Failure::usage(format!(
                "--why needs two numbers above 0 as in 5,3, not {}",
                value.to_string_lossy()
            ))
        })
}

fn grid(value: &OsString) -> Result<Grid, Failure> {
    value.to_str().and_then(Grid::read).ok_or_else(|| {
        Failure::usage(format!(
            "--grid needs two numbers above 0 as in 24x16, not {}",
            value.to_string_lossy()
        ))
    })
}
