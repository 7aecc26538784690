//! What is printed.

use crate::colours::squared;
use crate::map::Placed;
use crate::options::Options;
use crate::track::Track;
use crate::why::Why;
use redstartgilt::{count_and_least, SelectedInverseDiagnostics, VarianceBounds};
use std::fmt::Debug;
use std::io::{self, Write};

/// Values that are printed: floats, with all digits that are needed to read them back, or whole numbers, which are exact.
pub trait Value: Copy + Debug {
    /// The word for values of this kind in a Matrix Market header.
    const FIELD: &'static str;

    /// What stands before the word for a value, in a line of names.
    const EXACT: &'static str;

    /// What says that values are exact.
    const SENTENCE: Option<&'static str>;

    /// The value as a float, which it is or is exactly.
    fn float(self) -> f64;

    /// What is said of a summary's values as a whole; there is at least one.
    fn summary(values: &[Self]) -> String;
}

impl Value for f64 {
    const FIELD: &'static str = "real";
    const EXACT: &'static str = "";
    const SENTENCE: Option<&'static str> = None;

    fn float(self) -> f64 {
        self
    }

    fn summary(values: &[Self]) -> String {
        let counted = count_and_least(values);
        format!(
            "{} of them negative, the least {:?}",
            counted.num_negative, counted.min_value
        )
    }
}

impl Value for i64 {
    const FIELD: &'static str = "integer";
    const EXACT: &'static str = "exact_";
    const SENTENCE: Option<&'static str> = Some(EXACT);

    fn float(self) -> f64 {
        self as f64
    }

    fn summary(values: &[Self]) -> String {
        format!("the least {}", values.iter().min().expect("there is one"))
    }
}

/// The title and the unit that are asked for, before a summary.
pub fn heading(output: &mut impl Write, options: &Options) -> io::Result<()> {
    if options.csv {
        return Ok(());
    }
    if let Some(title) = &options.title {
        writeln!(output, "{title}")?;
    }
    match &options.unit {
        Some(unit) => writeln!(output, "Values are in {}.", squared(unit)),
        None => Ok(()),
    }
}

/// Status and counts, in one line.
pub fn counts(output: &mut impl Write, diagnostics: &SelectedInverseDiagnostics) -> io::Result<()> {
    writeln!(
        output,
        "{:?}: {} pairs requested, {} computed, {} in the factor, limit {}",
        diagnostics.status,
        diagnostics.requested_pairs,
        diagnostics.closure_pairs,
        diagnostics.factor_pairs,
        diagnostics.closure_limit
    )
}

/// Status and counts, and whether the values are exact.
fn counts_of<V: Value>(output: &mut impl Write, diagnostics: &SelectedInverseDiagnostics) -> io::Result<()> {
    counts(output, diagnostics)?;
    match V::SENTENCE {
        Some(sentence) => writeln!(output, "{sentence}"),
        None => Ok(()),
    }
}

/// The words that say that whole numbers are exact.
pub const EXACT: &str = "Exact: computed in whole numbers, and nothing was rounded.";

/// How many cells were computed, in two lines.
pub fn coverage<V: Value>(output: &mut impl Write, variances: &[Option<V>]) -> io::Result<()> {
    let cells = variances.len();
    let computed = variances.iter().flatten().copied().collect::<Vec<_>>();
    write!(output, "{} of {cells} cells computed", computed.len())?;
    if !computed.is_empty() {
        write!(output, ", {}", V::summary(&computed))?;
    }
    writeln!(output, "\n{} of {cells} cells not computed", cells - computed.len())
}

/// The words in the place of a variance that was not computed.
pub const NOT_COMPUTED: &str = "not computed";

/// The variance of a cell, and whether it was computed, as the last two fields of a line.
pub fn csv_fields<V: Value>(variance: Option<V>) -> String {
    match variance {
        Some(variance) => format!("{variance:?},yes"),
        None => ",no".to_string(),
    }
}

/// The square root of a variance of at least 0, with all its digits; nothing of another or of none.
fn csv_deviation<V: Value>(variance: Option<V>) -> String {
    match variance.map(V::float) {
        // The root of -0.0 is -0.0; the sum is 0.0.
        Some(variance) if variance >= 0.0 && variance.is_finite() => format!("{:?}", variance.sqrt() + 0.0),
        _ => String::new(),
    }
}

/// Every cell with its place, as comma-separated values.
pub fn placed_csv<V: Value>(output: &mut impl Write, variances: &[Option<V>], placed: &Placed) -> io::Result<()> {
    writeln!(output, "cell,column,row,{}variance,covered,deviation", V::EXACT)?;
    for (cell, variance) in variances.iter().enumerate() {
        let (column, row) = placed.place(cell);
        writeln!(
            output,
            "{},{},{},{},{}",
            cell + 1,
            column + 1,
            row + 1,
            csv_fields(*variance),
            csv_deviation(*variance)
        )?;
    }
    Ok(())
}

/// Every cell, counted from 1, with its variance or that it was not computed.
pub fn variances<V: Value>(
    output: &mut impl Write,
    csv: bool,
    diagnostics: &SelectedInverseDiagnostics,
    variances: &[Option<V>],
) -> io::Result<()> {
    if csv {
        writeln!(output, "cell,{}variance,covered", V::EXACT)?;
    } else {
        counts_of::<V>(output, diagnostics)?;
        coverage(output, variances)?;
        writeln!(output, "cell variance")?;
    }
    for (cell, variance) in variances.iter().enumerate() {
        let number = cell + 1;
        match variance {
            _ if csv => writeln!(output, "{number},{}", csv_fields(*variance))?,
            Some(variance) => writeln!(output, "{number} {variance:?}")?,
            None => writeln!(output, "{number} {NOT_COMPUTED}")?,
        }
    }
    Ok(())
}

/// The variance of each row of an operator.
pub fn row_variances(
    output: &mut impl Write,
    csv: bool,
    diagnostics: &SelectedInverseDiagnostics,
    variances: &[f64],
) -> io::Result<()> {
    if !csv {
        counts(output, diagnostics)?;
    }
    let gap = if csv { ',' } else { ' ' };
    writeln!(output, "row{gap}variance")?;
    for (row, variance) in variances.iter().enumerate() {
        writeln!(output, "{}{gap}{variance:?}", row + 1)?;
    }
    Ok(())
}

/// What bounds on a variance are.
pub const BOUNDS: &str =
    "Every choice of weights within a row's ranges has its variance from the low to the high bound. \
                          One choice of all weights need not have either.";

/// The bounds of each row, by its number.
pub fn bounds(
    output: &mut impl Write,
    csv: bool,
    diagnostics: &SelectedInverseDiagnostics,
    bounds: &[(usize, VarianceBounds)],
) -> io::Result<()> {
    let (gap, exact) = if csv { (',', i64::EXACT) } else { (' ', "") };
    if !csv {
        counts_of::<i64>(output, diagnostics)?;
        writeln!(output, "{BOUNDS}")?;
    }
    writeln!(output, "row{gap}{exact}low_bound{gap}{exact}high_bound")?;
    for (row, VarianceBounds { low, high }) in bounds {
        writeln!(output, "{}{gap}{low}{gap}{high}", row + 1)?;
    }
    Ok(())
}

/// The variance of each run of a track, with the first and the last of its cells.
pub fn track(
    output: &mut impl Write,
    csv: bool,
    diagnostics: &SelectedInverseDiagnostics,
    track: &Track,
) -> io::Result<()> {
    let (gap, exact) = if csv { (',', i64::EXACT) } else { (' ', "") };
    if !csv {
        counts_of::<i64>(output, diagnostics)?;
        writeln!(output, "{}", track.summary())?;
    }
    writeln!(output, "run{gap}first{gap}last{gap}{exact}variance")?;
    for (run, variance) in track.variances.iter().enumerate() {
        let (first, last) = track.ends(run);
        writeln!(output, "{}{gap}{}{gap}{}{gap}{variance}", run + 1, first + 1, last + 1)?;
    }
    Ok(())
}

/// The covariance of each row pair.
pub fn covariances(
    output: &mut impl Write,
    csv: bool,
    diagnostics: &SelectedInverseDiagnostics,
    row_pairs: &[(usize, usize)],
    covariances: &[f64],
) -> io::Result<()> {
    if !csv {
        counts(output, diagnostics)?;
    }
    let gap = if csv { ',' } else { ' ' };
    writeln!(output, "row{gap}with{gap}covariance")?;
    for ((row, with), covariance) in row_pairs.iter().zip(covariances) {
        writeln!(output, "{}{gap}{}{gap}{covariance:?}", row + 1, with + 1)?;
    }
    Ok(())
}

/// Every entry (row, column, value).
pub fn entries<V: Value>(
    output: &mut impl Write,
    csv: bool,
    diagnostics: &SelectedInverseDiagnostics,
    entries: impl Iterator<Item = (usize, usize, V)>,
) -> io::Result<()> {
    let (gap, exact) = if csv { (',', V::EXACT) } else { (' ', "") };
    if !csv {
        counts_of::<V>(output, diagnostics)?;
    }
    writeln!(output, "row{gap}column{gap}{exact}value")?;
    for (row, column, value) in entries {
        writeln!(output, "{}{gap}{}{gap}{value:?}", row + 1, column + 1)?;
    }
    Ok(())
}

/// The chain to a pair: with `csv` a line for each pair, otherwise in sentences, and its cells where they have places.
pub fn why(output: &mut impl Write, csv: bool, why: &Why, placed: Option<&Placed>) -> io::Result<()> {
    if csv {
        writeln!(output, "pair,row,column,factor_row,factor_column")?;
        let entries = why.couplings.iter().map(|coupling| Some(coupling.entry));
        for (number, ((row, column), entry)) in why.pairs.iter().zip([None].into_iter().chain(entries)).enumerate() {
            let entry = match entry {
                Some((row, column)) => format!("{},{}", row + 1, column + 1),
                None => ",".to_string(),
            };
            writeln!(output, "{},{},{},{entry}", number + 1, row + 1, column + 1)?;
        }
        return Ok(());
    }
    writeln!(output, "{}\n{}", why.answer(), why.numbering())?;
    for (number, sentence) in why.sentences().iter().enumerate() {
        writeln!(output, "{}  {sentence}", number + 1)?;
    }
    let Some(placed) = placed.filter(|_| !why.pairs.is_empty()) else {
        return Ok(());
    };
    writeln!(output, "cell column row pairs")?;
    for on_chain in why.cells() {
        let (column, row) = placed.place(on_chain.cell);
        let (cell, pairs) = (on_chain.cell + 1, on_chain.range('-'));
        writeln!(output, "{cell} {} {} {pairs}", column + 1, row + 1)?;
    }
    Ok(())
}
