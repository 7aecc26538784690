//! What the Rust gives, as lines of an answer.

use super::fed::Stop;
use super::*;
use cases::text::{answered, put_list, put_numbers, Case};

/// The words after `reply` where there is no answer.
pub fn stop(stop: &Stop) -> String {
    let (word, text) = match stop {
        Stop::Unfeedable(why) => return format!("unfeedable {why}"),
        Stop::Error(GmrfError::NonPositiveDefinite) => ("NonPositiveDefinite", ""),
        Stop::Error(GmrfError::SelectedInversePatternNotCovered) => ("SelectedInversePatternNotCovered", ""),
        Stop::Error(GmrfError::DimensionMismatch(text)) => ("DimensionMismatch", *text),
        Stop::Error(GmrfError::NumericalInstability(text)) => ("NumericalInstability", *text),
    };
    format!("err {word} {}", text.replace(' ', "-")).trim_end().to_string()
}

pub fn diagnosis(diagnostics: &SelectedInverseDiagnostics) -> String {
    format!(
        "status {:?}\nrequested {}\nclosure {}\nfactor {}\nlimit {}\nratio {}\n",
        diagnostics.status,
        diagnostics.requested_pairs,
        diagnostics.closure_pairs,
        diagnostics.factor_pairs,
        diagnostics.closure_limit,
        answered(diagnostics.closure_over_factor)
    )
}

pub fn numbers(name: &str, list: &[usize]) -> String {
    let mut text = String::new();
    put_numbers(&mut text, name, list);
    text
}

pub fn values(name: &str, list: &[f64]) -> String {
    let mut text = String::new();
    put_list(&mut text, name, list.iter().map(|value| answered(*value)));
    text
}

pub fn inverse(inverse: &SparseSelectedInverse) -> String {
    let (mut starts, mut rows, mut entries) = (vec![0], Vec::new(), Vec::new());
    for column in &inverse.columns {
        rows.extend(&column.rows);
        entries.extend(&column.values);
        starts.push(rows.len());
    }
    numbers("starts", &starts) + &numbers("rows", &rows) + &values("values", &entries)
}

pub fn pattern(pattern: &SparseSymmetricPattern) -> String {
    let (rows, columns): (Vec<usize>, Vec<usize>) = pattern.pairs.iter().copied().unzip();
    numbers("prows", &rows) + &numbers("pcols", &columns)
}

/// The lookups of a case's pairs.
pub fn lookups(case: &Case, inverse: &SparseSelectedInverse) -> String {
    found(inverse, case.numbers("prows").into_iter().zip(case.numbers("pcols")))
}

/// The lookup of each diagonal.
pub fn diagonal_lookups(inverse: &SparseSelectedInverse) -> String {
    found(inverse, (0..inverse.columns.len()).map(|index| (index, index)))
}

fn found(inverse: &SparseSelectedInverse, pairs: impl ExactSizeIterator<Item = (usize, usize)>) -> String {
    let mut text = String::new();
    put_list(&mut text, "gets", pairs.map(|(row, column)| inverse.get(row, column).map_or("none".to_string(), answered)));
    text
}

/// Whether two ways of the Rust tell the same.
pub fn agreement(one: &str, other: &str) -> &'static str {
    if one == other {
        "same"
    } else {
        "DIFFERS"
    }
}

/// Which route the Rust takes, asked of its own functions; where it is by the factor's pattern, the route by the closed
/// set must give the same.
pub fn route(
    factor: &SparseCholeskyFactor,
    requests: &SparseSymmetricPattern,
    limit: usize,
) -> Result<&'static str, GmrfError> {
    let columns = cholesky_columns(factor)?;
    let factor_pairs = cholesky_factor_pair_count(&columns);
    let (closure, _) = takahashi_dependency_closure(&columns, requests, limit, factor_pairs);
    let Some(closure) = closure else {
        return Ok("none");
    };
    if !closure_is_cholesky_factor_pattern(&columns, &closure, factor_pairs) {
        return Ok("closure");
    }
    let by_pattern = inverse(&takahashi_selected_inverse_on_factor_pattern(&columns)?);
    let by_closure = inverse(&takahashi_selected_inverse_on_closure(&columns, closure)?);
    Ok(if by_pattern == by_closure { "factor" } else { "factor-DIFFERS" })
}
