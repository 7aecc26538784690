//! Variances of an operator's rows, and covariances with those of another.

use crate::failure::{written, Failure};
use crate::options::Options;
use crate::{cell_lists, matrix_market, report};
use redstartgilt::{selected_inverse_transformed_covariances, selected_inverse_transformed_diag, CholeskyFactor};
use std::io::Write;
use std::path::Path;

/// Prints what the options ask of a factor and an operator; `file` is the factor's, for messages.
pub fn run(
    output: &mut impl Write,
    file: &Path,
    factor: &CholeskyFactor,
    operator: &Path,
    options: &Options,
) -> Result<(), Failure> {
    let refused = |error| Failure::refused_at(file.display(), error);
    let n = factor.dimension();
    let operator = matrix_market::operator(operator, n)?;
    let Some(with) = &options.with else {
        let found = selected_inverse_transformed_diag(factor, &operator).map_err(refused)?;
        let Some(estimate) = found.estimate else {
            return Err(Failure::too_many_pairs_of_rows(found.diagnostics.closure_limit));
        };
        return written(report::row_variances(
            output,
            options.csv,
            &found.diagnostics,
            &estimate.values,
        ));
    };
    let with = matrix_market::operator(with, n)?;
    let row_pairs = match &options.pairs {
        Some(list) => cell_lists::row_pairs(list, [operator.nrows(), with.nrows()])?,
        None => (0..operator.nrows())
            .flat_map(|row| (0..with.nrows()).map(move |other| (row, other)))
            .collect(),
    };
    let found = selected_inverse_transformed_covariances(factor, &operator, &with, &row_pairs).map_err(refused)?;
    let Some(covariances) = found.covariances else {
        return Err(Failure::too_many_pairs_of_rows(found.diagnostics.closure_limit));
    };
    written(report::covariances(
        output,
        options.csv,
        &found.diagnostics,
        &row_pairs,
        &covariances,
    ))
}
