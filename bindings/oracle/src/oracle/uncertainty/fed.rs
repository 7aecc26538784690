//! A case's lists as the Rust's types.

use super::*;
use crate::types::Permutation;
use cases::text::Case;

/// Why a case has no answer.
pub enum Stop {
    /// The Rust's own error.
    Error(GmrfError),
    /// The Rust's types cannot hold the lists.
    Unfeedable(&'static str),
}

impl From<GmrfError> for Stop {
    fn from(error: GmrfError) -> Self {
        Stop::Error(error)
    }
}

pub fn factor(case: &Case, permutation: Option<&Permutation>) -> SparseCholeskyFactor {
    let (starts, rows) = (case.numbers("starts"), case.numbers("rows"));
    SparseCholeskyFactor::from_lists(case.number("n"), starts, rows, case.values("values"), permutation)
}

pub fn permutation(case: &Case) -> Result<Permutation, GmrfError> {
    Permutation::from_orig_to_perm(case.numbers("perm"))
}

/// The limit that a case gives, or the Rust's own.
pub fn limit(case: &Case, factor: &SparseCholeskyFactor) -> usize {
    match case.word("limit") {
        "default" => default_selected_inverse_closure_limit(factor),
        _ => case.number("limit"),
    }
}

pub fn requests(case: &Case) -> Result<SparseSymmetricPattern, Stop> {
    let (rows, columns) = (case.numbers("rrows"), case.numbers("rcols"));
    if rows.len() != columns.len() {
        return Err(Stop::Unfeedable("request-lists-of-unequal-length"));
    }
    let mut pattern = SparseSymmetricPattern::new(case.number("rdim"));
    for (row, column) in rows.into_iter().zip(columns) {
        pattern.insert(row, column)?;
    }
    Ok(pattern)
}

/// The requests of a diagonal.
pub fn diagonal(dimension: usize) -> Result<SparseSymmetricPattern, GmrfError> {
    let mut pattern = SparseSymmetricPattern::new(dimension);
    for i in 0..dimension {
        pattern.insert(i, i)?;
    }
    Ok(pattern)
}

/// An operator whose columns are in factor order. Its fields are public; `SparseRowOperator::new` would refuse weights
/// that are not finite.
pub fn operator(case: &Case) -> Result<SparseRowOperator, Stop> {
    let (starts, columns, weights) = (case.numbers("ostarts"), case.numbers("ocols"), case.values("oweights"));
    let ascending = starts.first() == Some(&0) && starts.windows(2).all(|pair| pair[0] <= pair[1]);
    if !ascending || starts.last() != Some(&columns.len()) || columns.len() != weights.len() {
        return Err(Stop::Unfeedable("operator-lists-broken"));
    }
    let row = |pair: &[usize]| (pair[0]..pair[1]).map(|p| (columns[p], weights[p])).collect();
    Ok(SparseRowOperator { ncols: case.number("ncols"), rows: starts.windows(2).map(row).collect() })
}

/// Result lists as the Rust's columns. A broken column is left empty where `read` does not name it, as a lookup is of
/// one column alone.
pub fn inverse(case: &Case, read: impl Fn(usize) -> bool) -> Result<SparseSelectedInverse, Stop> {
    let (starts, rows, values) = (case.numbers("starts"), case.numbers("rows"), case.values("values"));
    let dimension = starts.len().checked_sub(1).ok_or(Stop::Unfeedable("no-starts"))?;
    let mut columns = Vec::new();
    for c in 0..dimension {
        let place = starts[c]..starts[c + 1];
        let place = match (rows.get(place.clone()), values.get(place.clone())) {
            (Some(_), Some(_)) => place,
            _ if read(c) => return Err(Stop::Unfeedable("column-broken")),
            _ => 0..0,
        };
        columns
            .push(SparseSelectedInverseColumn { rows: rows[place.clone()].to_vec(), values: values[place].to_vec() });
    }
    Ok(SparseSelectedInverse { dimension, columns })
}
