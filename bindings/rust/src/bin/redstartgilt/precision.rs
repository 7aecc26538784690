//! The matrix Q of a file, against which a factor is held.

use crate::checked::Checked;
use crate::counted::counted;
use crate::failure::{Failure, NOT_OF_PRECISION};
use crate::matrix_market::{self, Matrix};
use crate::options::Options;
use crate::order::reversed;
use redstartgilt::{
    CholeskyFactor, Error, FactorMismatch, LdlFactor, Permutation, Precision, PrecisionError, WholeFactor,
    WholePrecision,
};
use std::fmt::{Debug, Display};
use std::path::Path;

pub const HELP: &str = "  --precision FILE
      the precision matrix Q: a Matrix Market file in the order of the cells,
      coordinate or array, real or integer, symmetric with its lower triangle or
      general with both.
      Beside FACTOR: the factor is held against Q. Where L times its transpose
      (with --pivots L times D times its transpose) and Q differ at any entry by
      more than rounding, the exit status is 5, and the message has the entry
      that differs most, in cells, with both numbers. With u = 2^-53, an entry
      that is a sum of k products may differ by 2 (k + 128) u times the sum of
      their sizes: factorising and checking in 64-bit floats take (2k + 1) u of
      it, and the rest is for numbers written with 15 digits or more. With
      --whole they must be equal.
      A factor file with more entries above the diagonal than below it, and one
      whose entries above it mirror those below, is refused with the status 1.
      Without FACTOR: Q is factorised by CHOLMOD in the order that it chooses,
      and the factor is held against Q all the same. From Q to a map:
        redstartgilt --precision Q.mtx --grid 40x40 --html map.html
      The command must have been built where SuiteSparse is installed, Debian's
      package libsuitesparse-dev.
      Text, maps and pages then say \"checked against Q\", and --csv has the last
      column checked with yes
";

/// Q in floats.
pub fn read(file: &Path) -> Result<Precision, Failure> {
    let matrix = matrix_market::precision::<f64>(file)?;
    let diagonal = diagonal(&matrix);
    // Where Q is a sum of products, as K'K is, its two triangles are summed in different orders: by Cauchy and Schwarz
    // the sizes of the terms of entry (i, j) have at most the sum sqrt(q(i, i) q(j, j)).
    let roundings = 2.0 * (matrix.rows as f64 + 2.0) * (f64::EPSILON / 2.0);
    let same = |row: usize, column: usize, one: f64, other: f64| {
        (one - other).abs() <= roundings * (diagonal[row] * diagonal[column]).sqrt()
    };
    let triplets = lower(file, &matrix, same)?;
    Precision::from_triplets(matrix.rows, &triplets).map_err(|error| refused(file, error))
}

/// Q in whole numbers.
fn read_whole(file: &Path) -> Result<WholePrecision, Failure> {
    let matrix = matrix_market::precision::<i64>(file)?;
    let triplets = lower(file, &matrix, |_, _, one, other| one == other)?;
    WholePrecision::from_triplets(matrix.rows, &triplets).map_err(|error| refused(file, error))
}

fn refused(file: &Path, error: PrecisionError) -> Failure {
    match error {
        PrecisionError::Refused(error) => Failure::refused_at(file.display(), error),
        _ => Failure::in_file(file, error),
    }
}

/// The diagonal, 0.0 where no entry is stored; empty where the dimension is too large for lists.
fn diagonal(matrix: &Matrix<f64>) -> Vec<f64> {
    let mut diagonal = vec![0.0; matrix.rows.min(redstartgilt::MAX_DIMENSION)];
    for entry in matrix.entries.iter().filter(|entry| entry.row == entry.column) {
        if let Some(value) = diagonal.get_mut(entry.row) {
            *value = entry.value;
        }
    }
    diagonal
}

/// The entries of the lower triangle; of a file with both triangles these must be the same.
fn lower<V: Copy + Default + Debug>(
    file: &Path,
    matrix: &Matrix<V>,
    same: impl Fn(usize, usize, V, V) -> bool,
) -> Result<Vec<(usize, usize, V)>, Failure> {
    let entries = &matrix.entries;
    if !matrix.lower_only && matrix.rows <= redstartgilt::MAX_DIMENSION {
        for entry in entries.iter().filter(|entry| entry.row != entry.column) {
            let (row, column) = (entry.row, entry.column);
            // The entries go by column, then by row.
            let mirrored = entries.binary_search_by_key(&(row, column), |other| (other.column, other.row));
            let mirrored = mirrored.map_or(V::default(), |place| entries[place].value);
            if !same(row, column, entry.value, mirrored) {
                let (row, column) = (row + 1, column + 1);
                return Err(Failure::at_line(
                    file,
                    entry.line,
                    format!(
                        "entry ({row}, {column}) is {:?}, but entry ({column}, {row}) is {mirrored:?}: Q is symmetric. \
                         A file with one triangle alone is the lower one, with the header symmetric",
                        entry.value
                    ),
                ));
            }
        }
    }
    let triplets = matrix.triplets().into_iter();
    Ok(triplets.filter(|(row, column, _)| row >= column).collect())
}

/// The failure of a factor that is not that of Q; `hint` says what it may be.
fn differs(q: &Path, file: &Path, told: impl Display, hint: &str) -> Failure {
    Failure {
        message: format!("{} is not the factor of {}: {told}{hint}", file.display(), q.display()),
        status: NOT_OF_PRECISION,
    }
}

/// The refusal to compare.
fn not_compared(q: &Path, sizes: [usize; 2], error: Error) -> Failure {
    match error {
        Error::DimensionMismatch => Failure::refused_because(
            q.display(),
            error,
            format_args!("Q has {}, the factor {}", counted(sizes[0], "cell", "cells"), sizes[1]),
        ),
        _ => Failure::refused_at(q.display(), error),
    }
}

const REVERSED: &str =
    ". With its list of the order read the other way it is: --cell-to-place (or --permutation) has the \
                        place of each cell, --place-to-cell the cell at each place";
const PIVOTS: &str =
    ". It is L of L times D times its transpose with D on its diagonal: give D by --pivots, and ones on \
                      the diagonal";
const ITSELF: &str = ". It has the entries of Q itself, which is no factor; without FACTOR, --precision factorises Q";
const FEW_DIGITS: &str =
    ". If the factor is right, it or Q is written with too few digits: 15 are needed, and 17 give every \
                          float back";
const NO_ORDER: &str = ". No order is given: that of a permuted factor is given by --place-to-cell or --cell-to-place";

/// The first hint that holds.
fn hint(hints: &[(&'static str, &dyn Fn() -> bool)]) -> &'static str {
    hints.iter().find(|(_, holds)| holds()).map_or("", |(hint, _)| hint)
}

/// Whether the two numbers differ as numbers written with few digits do: the bound is at least 2^-45 of the sizes of the
/// numbers, so that this is some hundred thousandths of them.
fn is_close(mismatch: &FactorMismatch) -> bool {
    match mismatch {
        FactorMismatch::Differs(told) => (told.product - told.precision).abs() <= 1e9 * told.bound,
        FactorMismatch::Refused(_) => false,
    }
}

/// Holds a factor, with its order, against Q, where that is given.
pub fn check(options: &Options, file: &Path, factor: &CholeskyFactor) -> Result<Checked, Failure> {
    let Some(q) = &options.precision else {
        return Ok(Checked::No);
    };
    let precision = read(q)?;
    against(options, q, &precision, file, factor)
}

/// Holds a factor, with its order, against Q.
pub fn against(
    options: &Options,
    q: &Path,
    precision: &Precision,
    file: &Path,
    factor: &CholeskyFactor,
) -> Result<Checked, Failure> {
    let mismatch = match factor.check_against(precision) {
        Ok(()) => return Ok(Checked::WithinRounding),
        Err(FactorMismatch::Refused(error)) => {
            return Err(not_compared(q, [precision.dimension(), factor.dimension()], error))
        }
        Err(mismatch) => mismatch,
    };
    let order = factor.permutation();
    let in_reverse = || {
        let factor = factor.clone().with_permutation(reversed(order.clone()));
        factor.is_ok_and(|factor| factor.check_against(precision).is_ok())
    };
    let with_pivots = || {
        let (diagonal, others): (Vec<_>, Vec<_>) = factor
            .lower_triplets()
            .into_iter()
            .partition(|(row, column, _)| row == column);
        let pivots = diagonal.into_iter().map(|(_, _, pivot)| pivot).collect();
        let ldl = LdlFactor::from_triplets(factor.dimension(), &others, pivots);
        let ldl = ldl.and_then(|ldl| ldl.with_permutation(order.clone()));
        ldl.is_ok_and(|ldl| ldl.check_against(precision).is_ok())
    };
    let is_q = || {
        let stored = precision.entries().filter(|(_, _, value)| *value != 0.0);
        stored.eq(factor.lower_triplets())
    };
    let hint = hint(&[
        (REVERSED, &in_reverse),
        (PIVOTS, &with_pivots),
        (ITSELF, &is_q),
        (FEW_DIGITS, &|| is_close(&mismatch)),
        (NO_ORDER, &|| options.factor.is_some() && !options.has_order()),
    ]);
    Err(differs(q, file, mismatch.told_from(1), hint))
}

/// Holds a factor with pivots, with its order, against Q, where that is given.
pub fn check_pivots(options: &Options, file: &Path, factor: &LdlFactor) -> Result<Checked, Failure> {
    let Some(q) = &options.precision else {
        return Ok(Checked::No);
    };
    let precision = read(q)?;
    let mismatch = match factor.check_against(&precision) {
        Ok(()) => return Ok(Checked::WithinRounding),
        Err(FactorMismatch::Refused(error)) => {
            return Err(not_compared(q, [precision.dimension(), factor.dimension()], error))
        }
        Err(mismatch) => mismatch,
    };
    let in_reverse = || {
        let factor = factor.clone().with_permutation(reversed(factor.permutation()));
        factor.is_ok_and(|factor| factor.check_against(&precision).is_ok())
    };
    let hint = hint(&[
        (REVERSED, &in_reverse),
        (FEW_DIGITS, &|| is_close(&mismatch)),
        (NO_ORDER, &|| !options.has_order()),
    ]);
    Err(differs(q, file, mismatch.told_from(1), hint))
}

/// Holds a factor of whole numbers against Q, where that is given. One with numbers that are too large is left for the call
/// to refuse.
pub fn check_whole(
    options: &Options,
    file: &Path,
    factor: &WholeFactor,
    order: &Permutation,
) -> Result<Checked, Failure> {
    let Some(q) = &options.precision else {
        return Ok(Checked::No);
    };
    let precision = read_whole(q)?;
    let mismatch = match factor.check_against(&precision, order) {
        Ok(()) => return Ok(Checked::Exactly),
        Err(FactorMismatch::Refused(error)) => {
            return Err(not_compared(q, [precision.dimension(), factor.dimension()], error))
        }
        Err(mismatch) => mismatch,
    };
    let in_reverse = || factor.check_against(&precision, &reversed(order.clone())).is_ok();
    let hint = hint(&[(REVERSED, &in_reverse), (NO_ORDER, &|| !options.has_order())]);
    Err(differs(q, file, mismatch.told_from(1), hint))
}
