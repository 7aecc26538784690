//! The answers to cases, by kind.

use super::fed::{self, Stop};
use super::told;
use super::*;
use crate::types::Permutation;
use cases::text::{answered, Case, Cases};
use std::io::{self, BufReader, BufWriter, Write};
use std::panic::{catch_unwind, set_hook, AssertUnwindSafe};

/// The lines behind `reply ok`.
type Answer = Result<String, Stop>;

fn answer(case: &Case) -> Answer {
    match case.kind.as_str() {
        "entries" => entries(case),
        "defaultlimit" => Ok(format!("limit {}\n", default_selected_inverse_closure_limit(&fed::factor(case, None)))),
        "get" => {
            let (rows, columns) = (case.numbers("prows"), case.numbers("pcols"));
            let asked: Vec<usize> = rows.into_iter().zip(columns).map(|(row, column)| row.min(column)).collect();
            Ok(told::lookups(case, &fed::inverse(case, |c| asked.contains(&c))?))
        }
        "diag" => {
            let inverse = fed::inverse(case, |_| true)?;
            Ok(told::values("diag", inverse.diag().as_slice()) + &told::diagonal_lookups(&inverse))
        }
        "diagorig" => original_diagonal(case),
        "opvar" => operator_variances(case),
        "patfactor" => Ok(told::pattern(&SparseSymmetricPattern::from_cholesky_factor(&fed::factor(case, None)))),
        "patoperator" => Ok(told::pattern(&SparseSymmetricPattern::from_transformed_operator(&fed::operator(case)?)?)),
        "permfrom" => Ok(told::numbers("inv", &fed::permutation(case)?.perm_to_orig)),
        "permvalidate" => {
            Permutation { orig_to_perm: case.numbers("perm"), perm_to_orig: case.numbers("inv") }.validate()?;
            Ok(String::new())
        }
        "permapply" => reordered(case),
        "floor" => floor(case),
        "least" => {
            let (negative, least) = count_and_least(&Vector::from_vec(case.values("input")));
            Ok(format!("negative {negative}\nleast {}\n", answered(least)))
        }
        _ => case.fault("no such kind"),
    }
}

fn entries(case: &Case) -> Answer {
    let (factor, requests) = (fed::factor(case, None), fed::requests(case)?);
    let limit = fed::limit(case, &factor);
    let selected = match case.word("limit") {
        "default" => selected_inverse_entries(&factor, &requests)?,
        _ => selected_inverse_entries_with_limit(&factor, &requests, limit)?,
    };
    let mut text = told::diagnosis(&selected.diagnostics);
    text += &format!("route {}\n", told::route(&factor, &requests, limit)?);
    if let Some(inverse) = &selected.inverse {
        text += &told::inverse(inverse);
        if case.has("prows") {
            text += &told::lookups(case, inverse);
        }
    }
    Ok(text)
}

/// The lines of a call over selected entries, with the output where there is one.
fn selection(
    factor: &SparseCholeskyFactor,
    requests: &SparseSymmetricPattern,
    selected: &SelectedInverseEntries,
    output: Option<&Vector>,
) -> Result<String, GmrfError> {
    let route = told::route(factor, requests, default_selected_inverse_closure_limit(factor))?;
    let output = output.map_or(String::new(), |output| told::values("out", output.as_slice()));
    let inverse = selected.inverse.as_ref().map_or(String::new(), told::inverse);
    Ok(format!("{}route {route}\n{output}{inverse}", told::diagnosis(&selected.diagnostics)))
}

/// The output before the finishing step, and whether the function itself, with that step, gives the same.
fn original_diagonal(case: &Case) -> Answer {
    let permutation = fed::permutation(case)?;
    let factor = fed::factor(case, Some(&permutation));
    let whole = selected_inverse_diag_with_diagnostics(&factor)?;
    let requests = fed::diagonal(factor.dimension())?;
    let selected = selected_inverse_entries(&factor, &requests)?;
    let inverse = selected.inverse.as_ref().ok_or(GmrfError::SelectedInversePatternNotCovered)?;
    let output = factor.permute_factor_to_original(&inverse.diag())?;
    let finish = told::agreement(
        &finished(&selected.diagnostics, Some(&output)),
        &finished(&whole.diagnostics, Some(&whole.estimate.values)),
    );
    Ok(selection(&factor, &requests, &selected, Some(&output))? + &format!("finish {finish}\n"))
}

fn finished(diagnostics: &SelectedInverseDiagnostics, output: Option<&Vector>) -> String {
    told::diagnosis(diagnostics) + &output.map_or("none".to_string(), |output| told::values("out", output.as_slice()))
}

/// The output of the function's own steps but for `SparseRowOperator::new`, which refuses weights that are not finite;
/// and whether the function itself gives the same, or refuses such weights.
fn operator_variances(case: &Case) -> Answer {
    let (factor, operator) = (fed::factor(case, None), fed::operator(case)?);
    if operator.ncols != factor.dimension() {
        selected_inverse_transformed_diag(&factor, &operator)?;
        case.fault("the Rust takes an operator of another dimension");
    }
    let requests = SparseSymmetricPattern::from_transformed_operator(&operator)?;
    let selected = selected_inverse_entries(&factor, &requests)?;
    let output = match &selected.inverse {
        Some(inverse) => Some(transformed_values(&operator, &operator, inverse)?),
        None => None,
    };
    let finite = operator.rows.iter().flatten().all(|term| term.1.is_finite());
    let finish = match selected_inverse_transformed_diag(&factor, &operator) {
        Ok(whole) if finite => told::agreement(
            &finished(&selected.diagnostics, output.as_ref()),
            &finished(&whole.diagnostics, whole.estimate.as_ref().map(|estimate| &estimate.values)),
        ),
        Err(_) if !finite => "refused",
        _ => "DIFFERS",
    };
    Ok(selection(&factor, &requests, &selected, output.as_ref())? + &format!("finish {finish}\n"))
}

fn reordered(case: &Case) -> Answer {
    let permutation = fed::permutation(case)?;
    let dimension = permutation.dimension();
    let factor = SparseCholeskyFactor::from_lists(dimension, vec![0], Vec::new(), Vec::new(), Some(&permutation));
    let output = factor.permute_factor_to_original(&Vector::from_vec(case.values("input")))?;
    Ok(told::values("out", output.as_slice()))
}

fn floor(case: &Case) -> Answer {
    let floor = match case.word("floor") {
        "zero" => VarianceFloor::Zero,
        "mean" => VarianceFloor::PositiveMean { scale: case.value("scale") },
        _ => case.fault("no such floor"),
    };
    let stabilized = stabilize_variances(&Vector::from_vec(case.values("input")), floor)?;
    let text = format!("floor {}\nhits {}\n", answered(stabilized.floor), stabilized.floor_hits);
    Ok(text + &told::values("out", stabilized.values.as_slice()))
}

/// Whether the answer has every line that the case expects; says which it has not.
fn as_expected(case: &Case, text: &str) -> bool {
    let missing: Vec<String> = case.expected().filter(|line| !text.lines().any(|other| other == line)).collect();
    for line in &missing {
        eprintln!("case {} {}: the answer has not: {line}", case.name, case.kind);
    }
    missing.is_empty()
}

/// Reads cases and writes their answers; whether all are as the cases expect. A panic is the Rust's.
pub fn answer_all() -> io::Result<bool> {
    set_hook(Box::new(|_| {}));
    let mut output = BufWriter::with_capacity(1 << 20, io::stdout().lock());
    let mut expected = true;
    for case in Cases::new(BufReader::with_capacity(1 << 20, io::stdin().lock())) {
        let text = match catch_unwind(AssertUnwindSafe(|| answer(&case))) {
            Ok(Ok(lines)) => format!("reply ok\n{lines}"),
            Ok(Err(stop)) => format!("reply {}\n", told::stop(&stop)),
            Err(_) => "reply panic\n".to_string(),
        };
        expected &= as_expected(&case, &text);
        write!(output, "case {} {}\n{text}end\n", case.name, case.kind)?;
    }
    output.flush()?;
    Ok(expected)
}

/// What program `star` writes: document 01's F3 with the request (0,0) and the limit 6.
pub fn star() -> io::Result<()> {
    let (starts, rows, values) = (vec![0, 3, 4, 5], vec![0, 1, 2, 1, 2], vec![1.0, 2.0, 3.0, 1.0, 1.0]);
    let factor = SparseCholeskyFactor::from_lists(3, starts, rows, values, None);
    let mut requests = SparseSymmetricPattern::new(3);
    requests.insert(0, 0).expect("in the pattern");
    let selected = selected_inverse_entries_with_limit(&factor, &requests, 6).expect("a sound factor");
    let mut output = io::stdout().lock();
    let told = &selected.diagnostics;
    write!(output, "{:?} {} {}", told.status, told.requested_pairs, told.closure_pairs)?;
    writeln!(output, " {} {}", told.factor_pairs, told.closure_limit)?;
    for (c, column) in selected.inverse.iter().flat_map(|inverse| inverse.columns.iter().enumerate()) {
        for (r, value) in column.rows.iter().zip(&column.values) {
            writeln!(output, "{r} {c} {}", answered(*value))?;
        }
    }
    Ok(())
}
