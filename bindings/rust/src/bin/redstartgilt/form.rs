//! Whether a file that is held against Q looks like a lower factor.

use crate::counted::counted;
use crate::failure::Failure;
use crate::matrix_market::Matrix;
use crate::options::Options;
use std::path::Path;

/// What a symmetric matrix is to be.
const NO_FACTOR: &str = "a factor is lower: this looks like Q itself. --precision takes Q, and without FACTOR \
                         factorises it";

/// Whether every entry other than 0 is there at the mirrored place too.
fn is_symmetric<V: Copy + Default + PartialEq>(matrix: &Matrix<V>) -> bool {
    let entries = &matrix.entries;
    entries.iter().all(|entry| {
        // The entries go by column, then by row.
        let mirrored = entries.binary_search_by_key(&(entry.row, entry.column), |other| (other.column, other.row));
        entry.value == mirrored.map_or(V::default(), |place| entries[place].value)
    })
}

/// Where Q is given: refused are a factor's file with more entries above the diagonal than below it, and one whose entries
/// above it mirror those below.
pub fn check<V: Copy + Default + PartialEq>(options: &Options, file: &Path, matrix: &Matrix<V>) -> Result<(), Failure> {
    if options.precision.is_none() {
        return Ok(());
    }
    let entries = || matrix.entries.iter().filter(|entry| entry.value != V::default());
    let above = entries().filter(|entry| entry.row < entry.column).count();
    let below = entries().filter(|entry| entry.row > entry.column).count();
    if above > below {
        return Err(Failure::in_file(
            file,
            format!(
                "this looks like an upper factor: {} above the diagonal, {below} below it. A factor is lower, L of L times \
                 its transpose; transpose it",
                counted(above, "entry", "entries")
            ),
        ));
    }
    if above > 0 && is_symmetric(matrix) {
        return Err(Failure::in_file(
            file,
            format!("this matrix is symmetric, and {NO_FACTOR}"),
        ));
    }
    Ok(())
}
