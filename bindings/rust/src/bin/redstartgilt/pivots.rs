//! Variances and entries of a factor with pivots, and what a refusal of it is about.

use crate::cell_lists::{self, Pivot};
use crate::failure::{written, Failure};
use crate::options::Options;
use crate::{draw, form, found, mask, matrix_file, matrix_market, order, precision, print, report, requested, Found};
use redstartgilt::{
    selected_inverse_entries_ldl, selected_inverse_entries_ldl_with_limit, Error, LdlFactor, SparseSymmetricPattern,
};
use std::io::Write;
use std::path::Path;

/// Prints, and draws where that is asked for, what the options ask of a factor and the pivots of a list.
pub fn run(output: &mut impl Write, file: &Path, list: &Path, options: &Options) -> Result<(), Failure> {
    let factor = read(file, list, options)?;
    let n = factor.dimension();
    let placed = mask::placed(options, n)?;
    let factor = match order::read(options, n)? {
        Some(order) => factor
            .with_permutation(order)
            .map_err(|error| Failure::refused_at(file.display(), error))?,
        None => factor,
    };
    let checked = precision::check_pivots(options, file, &factor)?;
    let output = &mut checked.output(output, options.csv);
    let requested = requested(&factor.permutation(), options)?;
    let found = find(file, &factor, &requested, options)?;
    draw(options, file, &found, None, placed.as_ref(), checked)?;
    matrix_file::write(options, &found)?;
    written(report::heading(output, options))?;
    print(output, options, found, placed.as_ref())
}

fn find(
    file: &Path,
    factor: &LdlFactor,
    requested: &SparseSymmetricPattern,
    options: &Options,
) -> Result<Found, Failure> {
    let refused = |error| Failure::refused_at(file.display(), error);
    let selected = match options.limit {
        Some(limit) => selected_inverse_entries_ldl_with_limit(factor, requested, limit),
        None => selected_inverse_entries_ldl(factor, requested),
    }
    .map_err(refused)?;
    let reordered = |diagonal: &[Option<f64>]| factor.permute_factor_to_original_marked(diagonal);
    found(selected, requested, &factor.permutation(), reordered, options, refused)
}

fn read(file: &Path, list: &Path, options: &Options) -> Result<LdlFactor, Failure> {
    let matrix = matrix_market::unit_factor(file)?;
    let pivots = cell_lists::pivots(list)?;
    let values = pivots.iter().map(|pivot| pivot.value).collect();
    let factor = LdlFactor::from_triplets(matrix.rows, &matrix.triplets(), values);
    let factor = factor.map_err(|error| match error {
        Error::NotFiniteEntry(Some(_)) | Error::PivotDiagonalNotOne => {
            matrix_market::refused_factor(file, &matrix, error)
        }
        _ => refused(file, list, matrix.rows, &pivots, error),
    })?;
    form::check(options, file, &matrix)?;
    Ok(factor)
}

/// The refusal of pivots for so many columns, with what it is about; pivots are counted from 1.
fn refused(file: &Path, list: &Path, columns: usize, pivots: &[Pivot], error: Error) -> Failure {
    let at_fault = |is_at_fault: fn(f64) -> bool, what: &str| {
        let (number, pivot) = (1..).zip(pivots).find(|(_, pivot)| is_at_fault(pivot.value))?;
        Some(Failure::refused_because(
            format_args!("{}:{}", list.display(), pivot.line),
            error,
            format_args!("pivot {number} is {:?}, {what}", pivot.value),
        ))
    };
    let told = match error {
        Error::DimensionMismatch => Some(Failure::refused_because(
            list.display(),
            error,
            format_args!(
                "the list has {} pivots, the factor {columns} columns, and each needs one",
                pivots.len()
            ),
        )),
        Error::NotFiniteEntry(_) => at_fault(|value| !value.is_finite(), "which is not finite"),
        Error::NonPositiveDefinite => at_fault(|value| value <= 0.0, "and a pivot must be above 0"),
        _ => None,
    };
    told.unwrap_or_else(|| Failure::refused_at(file.display(), error))
}
