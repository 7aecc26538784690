//! The harbour's calibration basin: four cells whose factor is in whole numbers, so that every entry is known exactly.

use crate::report;
use redstartgilt::{
    selected_inverse_entries, selected_inverse_entries_whole, CholeskyFactor, Error, SelectedInverseDiagnostics,
    SparseSymmetricPattern, WholeFactor,
};
use std::io::{self, Write};

const CELLS: usize = 4;

/// Entries (row, column, value) below the diagonal, which is 1: each cell with the ones beside and below it.
const COUPLINGS: [(usize, usize, i64); 4] = [(1, 0, -7), (2, 0, -12), (3, 1, -25), (3, 2, -40)];

/// All entries (row, column, exact value, float) of the inverse, row ≥ column.
pub struct Calibration {
    diagnostics: SelectedInverseDiagnostics,
    entries: Vec<(usize, usize, i64, f64)>,
}

impl Calibration {
    /// The basin in whole numbers, and again in floats.
    pub fn new() -> Result<Self, Error> {
        let mut triplets = COUPLINGS.to_vec();
        triplets.extend((0..CELLS).map(|cell| (cell, cell, 1)));
        let wholes = WholeFactor::from_triplets(CELLS, &triplets)?;
        let floats = triplets
            .into_iter()
            .map(|(row, column, value)| (row, column, value as f64));
        let floats = CholeskyFactor::from_triplets(CELLS, &floats.collect::<Vec<_>>())?;
        let mut requested = SparseSymmetricPattern::new(CELLS);
        for row in 0..CELLS {
            for column in 0..=row {
                requested.insert(row, column)?;
            }
        }
        let wholes = selected_inverse_entries_whole(&wholes, &requested)?;
        let exact = wholes.inverse.ok_or(Error::NotCovered)?;
        let floats = selected_inverse_entries(&floats, &requested)?;
        let floats = floats.inverse.ok_or(Error::NotCovered)?;
        let both = exact.entries().zip(floats.entries());
        Ok(Self {
            diagnostics: wholes.diagnostics,
            entries: both
                .map(|((row, column, exact), (_, _, float))| (row, column, exact, float))
                .collect(),
        })
    }

    /// How many floats are equal to the exact entry.
    fn equal(&self) -> usize {
        let entries = self.entries.iter();
        // Up to 2^53 a float is the whole number itself.
        entries.filter(|(_, _, exact, float)| *exact as f64 == *float).count()
    }

    /// The entries, exact and as floats.
    pub fn table(&self, output: &mut impl Write) -> io::Result<()> {
        writeln!(
            output,
            "A calibration basin of {CELLS} cells, its factor in whole numbers: the inverse, exact and as floats."
        )?;
        report::counts(output, &self.diagnostics)?;
        writeln!(output, "{}", report::EXACT)?;
        writeln!(
            output,
            "{} of {} floats are equal to the exact entry.",
            self.equal(),
            self.entries.len()
        )?;
        writeln!(output, "{:>3} {:>6} {:>12}  float", "row", "column", "exact")?;
        for (row, column, exact, float) in &self.entries {
            writeln!(output, "{:>3} {:>6} {exact:>12}  {float:?}", row + 1, column + 1)?;
        }
        Ok(())
    }
}

#[cfg(test)]
mod tests {
    use super::{Calibration, CELLS, COUPLINGS};

    /// The entries solve the equation L·Lᵀ·Z = I in whole numbers, and the floats are equal to them.
    #[test]
    fn the_entries_are_those_of_the_inverse() {
        let calibration = Calibration::new().unwrap();
        assert_eq!(calibration.entries.len(), CELLS * (CELLS + 1) / 2);
        assert_eq!(calibration.equal(), calibration.entries.len());
        let value = |row: usize, column: usize| {
            let entry = COUPLINGS.into_iter().find(|(r, c, _)| (*r, *c) == (row, column));
            entry.map_or(i64::from(row == column), |(_, _, value)| value)
        };
        let inverse = |row: usize, column: usize| {
            let (row, column) = (row.max(column), row.min(column));
            let mut entries = calibration.entries.iter();
            entries.find(|(r, c, _, _)| (*r, *c) == (row, column)).unwrap().2
        };
        let precision = |row, column| (0..CELLS).map(|k| value(row, k) * value(column, k)).sum::<i64>();
        for row in 0..CELLS {
            for column in 0..CELLS {
                let sum = (0..CELLS).map(|k| precision(row, k) * inverse(k, column)).sum::<i64>();
                assert_eq!(sum, i64::from(row == column), "({row}, {column})");
            }
        }
    }
}
