//! Variances and entries in whole numbers, and what a refusal of them is about.

use crate::checked::Checked;
use crate::failure::{written, Failure};
use crate::map::{Map, Placed};
use crate::matrix_market::{self, Entry};
use crate::options::Options;
use crate::track::{self, Track};
use crate::{
    colours, form, mask, matrix_file, name_of, order, precision, print, ranges, report, requested, wanted_entries,
    write_map, Found,
};
use redstartgilt::lent::default_limit;
use redstartgilt::{
    selected_inverse_entries_whole_with_limit, selected_inverse_entries_with_limit, CholeskyFactor, Error, Permutation,
    SelectedInverseDiagnostics, SparseSymmetricPattern, WholeFactor, WholeSelectedInverse, MAX_ENTRIES,
};
use std::io::Write;
use std::path::Path;

/// The largest size that numbers may have.
const LARGEST: u64 = 1 << 53;

/// A factor of whole numbers from a file.
pub struct Whole<'a> {
    file: &'a Path,
    factor: WholeFactor,
    entries: Vec<Entry<i64>>,
    /// The order of the cells.
    pub permutation: Permutation,
    /// Where the cells are, if that is given.
    placed: Option<Placed>,
    checked: Checked,
}

impl<'a> Whole<'a> {
    fn read(file: &'a Path, options: &Options) -> Result<Self, Failure> {
        let (factor, matrix) = matrix_market::whole_factor(file)?;
        let n = factor.dimension();
        let placed = mask::placed(options, n)?;
        let permutation = order::read(options, n)?.unwrap_or_else(|| Permutation::identity(n));
        form::check(options, file, &matrix)?;
        let checked = precision::check_whole(options, file, &factor, &permutation)?;
        Ok(Self {
            file,
            factor,
            entries: matrix.entries,
            permutation,
            placed,
            checked,
        })
    }

    pub fn dimension(&self) -> usize {
        self.factor.dimension()
    }

    /// The place of a cell in the factor; that of a cell outside is outside too.
    pub fn place(&self, cell: usize) -> usize {
        self.permutation.orig_to_perm.get(cell).copied().unwrap_or(cell)
    }

    /// The entries at pairs in the factor's order, and at all that the recurrence needs for them.
    pub fn select(
        &self,
        requested: &SparseSymmetricPattern,
        options: &Options,
    ) -> Result<(WholeSelectedInverse, SelectedInverseDiagnostics), Failure> {
        let limit = options.limit.unwrap_or(default_limit(self.factor.nnz()));
        let selected = selected_inverse_entries_whole_with_limit(&self.factor, requested, limit)
            .map_err(|error| refused(self.file, &self.factor, &self.entries, requested, limit, error))?;
        match selected.inverse {
            Some(inverse) => Ok((inverse, selected.diagnostics)),
            None => Err(Failure::too_many_pairs(limit)),
        }
    }

    /// The variance of each cell that has one, in the order of the cells.
    fn variances(&self, inverse: &WholeSelectedInverse) -> Vec<Option<i64>> {
        let diagonal = inverse.diag();
        let places = self.permutation.orig_to_perm.iter();
        places.map(|place| diagonal[*place]).collect()
    }

    /// Writes a map of the variances, with a file's track on it, where that is asked for.
    pub fn draw(
        &self,
        inverse: &WholeSelectedInverse,
        diagnostics: &SelectedInverseDiagnostics,
        track: Option<(&Path, &Track)>,
        options: &Options,
    ) -> Result<(), Failure> {
        let Some(placed) = &self.placed else {
            return Ok(());
        };
        // Up to 2^53 a float is the whole number itself.
        let variances = self.variances(inverse).into_iter();
        let variances = variances.map(|variance| variance.map(|whole| whole as f64));
        let factor = name_of(self.file);
        let title = match track {
            Some((list, _)) => format!("Exact variances of {factor} along {}", name_of(list)),
            None => format!("Exact variances of {factor}"),
        };
        let map = Map {
            title: &colours::title(options, title, true),
            titled: options.title.is_some(),
            unit: options.unit.as_deref(),
            cells: &placed.map_cells(variances),
            placed,
            colours: options.colours,
            why: None,
            track: track.map(|(_, track)| track),
            diagnostics,
            checked: self.checked,
        };
        write_map(options, &map)
    }
}

/// Prints, and draws where that is asked for, what the options ask of a factor of whole numbers.
pub fn run(output: &mut impl Write, file: &Path, options: &Options) -> Result<(), Failure> {
    let whole = Whole::read(file, options)?;
    let output = &mut whole.checked.output(output, options.csv);
    if let Some(list) = &options.ranges {
        return ranges::run(output, &whole, list, options);
    }
    if let (Some(list), Some(width)) = (&options.track, options.width) {
        return track::run(output, &whole, (list, width), options);
    }
    let requested = requested(&whole.permutation, options)?;
    let (inverse, diagnostics) = whole.select(&requested, options)?;
    whole.draw(&inverse, &diagnostics, None, options)?;
    let found = Found {
        diagnostics,
        variances: whole.variances(&inverse),
        entries: wanted_entries(inverse.entries(), &requested, &whole.permutation, options),
    };
    matrix_file::write(options, &found)?;
    written(report::heading(output, options))?;
    print(output, options, found, whole.placed.as_ref())
}

/// The refusal of a call in whole numbers, with what it is about; entries and columns are counted from 1.
fn refused(
    file: &Path,
    factor: &WholeFactor,
    entries: &[Entry<i64>],
    requested: &SparseSymmetricPattern,
    limit: usize,
    error: Error,
) -> Failure {
    let mut kept = entries
        .iter()
        .filter(|entry| entry.row >= entry.column && entry.value != 0);
    let at = |entry: &Entry<i64>, what: &str| {
        Failure::refused_because(
            format_args!("{}:{}", file.display(), entry.line),
            error,
            format_args!(
                "entry ({}, {}) of the factor is {}, {what}",
                entry.row + 1,
                entry.column + 1,
                entry.value
            ),
        )
    };
    match error {
        Error::DiagonalNotOne => {
            if let Some(entry) = kept.find(|entry| entry.row == entry.column && entry.value != 1) {
                return at(entry, "and a diagonal must be 1");
            }
        }
        Error::NonPositiveDefinite => {
            let diagonals = kept.filter(|entry| entry.row == entry.column).map(|entry| entry.column);
            // By column, so those before the first that is missing are each in its place.
            let column = diagonals.zip(0..).take_while(|(column, place)| column == place).count();
            let reason = format_args!("column {} of the factor has no diagonal entry", column + 1);
            return Failure::refused_because(file.display(), error, reason);
        }
        Error::NumberTooLarge => {
            if let Some(entry) = kept.find(|entry| entry.value.unsigned_abs() > LARGEST) {
                return at(entry, "which is beyond 2^53 in size");
            }
            if let Some(column) = column_beyond(factor, requested, limit) {
                let reason = format_args!(
                    "in column {} of the factor a product, a running sum or an entry of the recurrence is beyond 2^53 in \
                     size; in later columns none is",
                    column + 1
                );
                return Failure::refused_because(file.display(), error, reason);
            }
        }
        _ => {}
    }
    Failure::refused_at(file.display(), error)
}

/// The last column with a number of the recurrence over the closed set that is beyond 2^53, of a factor whose entries are
/// not; `None` where the set has more pairs than can be requested.
///
/// What a pair needs stands in its column or a later one, so the pairs from a column on are a closed set. Whether their
/// numbers are within 2^53 is what the call answers, for fewer columns if it does for more.
fn column_beyond(factor: &WholeFactor, requested: &SparseSymmetricPattern, limit: usize) -> Option<usize> {
    let n = factor.dimension();
    // The set is that of the same factor as floats.
    let triplets = factor.lower_triplets().into_iter();
    let floats = triplets.map(|(row, column, value)| (row, column, value as f64));
    let floats = CholeskyFactor::from_triplets(n, &floats.collect::<Vec<_>>()).ok()?;
    let set = selected_inverse_entries_with_limit(&floats, requested, limit)
        .ok()?
        .inverse?;
    if set.len() > MAX_ENTRIES {
        return None;
    }
    let is_beyond = |first: usize| {
        let pairs = set.entries().map(|(row, column, _)| (row, column));
        let requested = SparseSymmetricPattern {
            dimension: n,
            pairs: pairs.filter(|(_, column)| *column >= first).collect(),
        };
        let answer = selected_inverse_entries_whole_with_limit(factor, &requested, limit);
        answer == Err(Error::NumberTooLarge)
    };
    // Beyond from `low` on, not from `high` on.
    let (mut low, mut high) = (0, n);
    while high - low > 1 {
        let middle = low + (high - low) / 2;
        if is_beyond(middle) {
            low = middle;
        } else {
            high = middle;
        }
    }
    Some(low)
}

#[cfg(test)]
mod tests {
    use super::{column_beyond, LARGEST};
    use redstartgilt::{
        selected_inverse_entries_whole_with_limit, selected_inverse_entries_with_limit, CholeskyFactor, Error,
        SparseSymmetricPattern, WholeFactor,
    };

    /// The last column with a number beyond 2^53 over these pairs, by the recurrence in 128-bit numbers.
    fn last_beyond(n: usize, lower: &[i128], pairs: &[(usize, usize)]) -> Option<usize> {
        let mut inverse = vec![0i128; n * n];
        for column in (0..n).rev() {
            let mut beyond = false;
            for row in (column..n).rev().filter(|row| pairs.contains(&(*row, column))) {
                let mut sum = 0;
                for k in column + 1..n {
                    let product = lower[k * n + column] * inverse[row.max(k) * n + row.min(k)];
                    sum += product;
                    beyond |= product.unsigned_abs().max(sum.unsigned_abs()) > u128::from(LARGEST);
                }
                let entry = i128::from(row == column) - sum;
                beyond |= entry.unsigned_abs() > u128::from(LARGEST);
                inverse[row * n + column] = entry;
            }
            if beyond {
                return Some(column);
            }
        }
        None
    }

    #[test]
    fn the_column_is_the_last_one_with_such_a_number() {
        let mut state = 8u64;
        let mut below = |bound: u64| {
            state = state
                .wrapping_mul(6_364_136_223_846_793_005)
                .wrapping_add(1_442_695_040_888_963_407);
            (state >> 33) % bound
        };
        let mut columns = [0; 9];
        for _ in 0..1_500 {
            let n = 2 + below(7) as usize;
            let mut lower = vec![0i128; n * n];
            let mut triplets = (0..n).map(|cell| (cell, cell, 1)).collect::<Vec<_>>();
            for column in 0..n {
                for row in column + 1..n {
                    if below(2) == 0 {
                        let value = below(40_000) as i64 - 20_000;
                        triplets.push((row, column, value));
                        lower[row * n + column] = i128::from(value);
                    }
                }
            }
            let mut requested = SparseSymmetricPattern::new(n);
            for _ in 0..1 + below(3) {
                let mut index = || below(n as u64) as usize;
                requested.insert(index(), index()).unwrap();
            }
            let floats = triplets
                .iter()
                .map(|(row, column, value)| (*row, *column, *value as f64));
            let floats = CholeskyFactor::from_triplets(n, &floats.collect::<Vec<_>>()).unwrap();
            let set = selected_inverse_entries_with_limit(&floats, &requested, usize::MAX).unwrap();
            let set = set.inverse.unwrap();
            let pairs = set.entries().map(|(row, column, _)| (row, column));
            let expected = last_beyond(n, &lower, &pairs.collect::<Vec<_>>());
            let factor = WholeFactor::from_triplets(n, &triplets).unwrap();
            match selected_inverse_entries_whole_with_limit(&factor, &requested, set.len()) {
                Err(error) => {
                    assert_eq!(error, Error::NumberTooLarge);
                    let told = column_beyond(&factor, &requested, set.len());
                    assert_eq!(told, expected);
                    columns[told.unwrap()] += 1;
                }
                Ok(_) => assert_eq!(expected, None),
            }
        }
        // Columns of every part come up.
        assert!(columns[0] > 50 && columns[1] > 50 && columns[3] > 5, "{columns:?}");
    }
}
