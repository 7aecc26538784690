//! Requests, row pairs, ranges, tracks, permutations and pivots from files with a few numbers a line.

use crate::failure::Failure;
use crate::files;
use crate::lines::Lines;
use redstartgilt::{Error, Permutation, RequestFileFault, RequestFileWriteError, SparseSymmetricPattern};
use std::collections::BTreeMap;
use std::path::Path;

pub fn is_comment(line: &str) -> bool {
    line.starts_with(['%', '#'])
}

/// The words of each line, with the line's number; each line must have as many as `names`.
fn words<'a, const COUNT: usize>(
    file: &'a Path,
    text: &'a [u8],
    names: &str,
) -> Result<Vec<(usize, [&'a str; COUNT])>, Failure> {
    let mut lines = Lines::new(file, text);
    let mut found = Vec::new();
    while let Some((number, line)) = lines.next_filled(is_comment)? {
        let words = line.split_whitespace().collect::<Vec<_>>();
        let words = words.try_into().map_err(|words: Vec<_>| {
            Failure::at_line(
                file,
                number,
                format!("a line has {names}, but this one has {} words", words.len()),
            )
        })?;
        found.push((number, words));
    }
    Ok(found)
}

/// The index that a word gives, counted from 0.
pub fn index(file: &Path, line: usize, word: &str) -> Result<usize, Failure> {
    match word.parse::<usize>() {
        Ok(index) if index > 0 => Ok(index - 1),
        _ => Err(Failure::at_line(
            file,
            line,
            format!("{word} is not a whole number from 1"),
        )),
    }
}

/// The indices of each line, counted from 0, with the line's number; each line must have as many as `names`.
fn indices<const COUNT: usize>(file: &Path, text: &[u8], names: &str) -> Result<Vec<(usize, [usize; COUNT])>, Failure> {
    let mut found = Vec::new();
    for (line, words) in words::<COUNT>(file, text, names)? {
        let mut places = [0; COUNT];
        for (place, word) in places.iter_mut().zip(words) {
            *place = index(file, line, word)?;
        }
        found.push((line, places));
    }
    Ok(found)
}

/// Whether a file is to be read as a Matrix Market file: its first line begins as the headers of such files do. The
/// library then says whether it is one, so that another header is refused and not passed over as a comment.
fn is_matrix_market(text: &[u8]) -> bool {
    const BEGINNING: &[u8] = b"%%MatrixMarket";
    const BYTE_ORDER_MARK: &[u8] = b"\xef\xbb\xbf";
    let text = text.strip_prefix(BYTE_ORDER_MARK).unwrap_or(text);
    text.get(..BEGINNING.len())
        .is_some_and(|beginning| beginning.eq_ignore_ascii_case(BEGINNING))
}

/// The pairs of a Matrix Market file, which must be of this dimension.
fn matrix_market(file: &Path, text: &[u8], dimension: usize) -> Result<SparseSymmetricPattern, Failure> {
    let pattern = SparseSymmetricPattern::from_matrix_market(text).map_err(|error| refused_file(file, text, error))?;
    if pattern.dimension != dimension {
        return Err(Failure::refused_because(
            file.display(),
            Error::DimensionMismatch,
            format_args!(
                "the file is of dimension {}, the factor of dimension {dimension}",
                pattern.dimension
            ),
        ));
    }
    Ok(pattern)
}

/// The refusal of a Matrix Market file, with the line and the reason.
fn refused_file(file: &Path, text: &[u8], error: Error) -> Failure {
    let Some(fault) = RequestFileFault::find(text) else {
        return Failure::refused_at(file.display(), error);
    };
    let place = match fault.line {
        Some(line) => format!("{}:{line}", file.display()),
        None => file.display().to_string(),
    };
    Failure::refused_because(place, fault.error, fault.reason)
}

/// The requested pairs of a file, moved to the factor's order.
pub fn requests(file: &Path, dimension: usize, permutation: &Permutation) -> Result<SparseSymmetricPattern, Failure> {
    // An index outside stays as it is, for the pattern to refuse.
    let place = |cell: usize| permutation.orig_to_perm.get(cell).copied().unwrap_or(cell);
    let text = files::read(file)?;
    let mut pattern = SparseSymmetricPattern::new(dimension);
    if is_matrix_market(&text) {
        for (row, column) in matrix_market(file, &text, dimension)?.pairs {
            pattern
                .insert(place(row), place(column))
                .map_err(|error| Failure::refused_at(file.display(), error))?;
        }
        return Ok(pattern);
    }
    for (line, [row, column]) in indices::<2>(file, &text, "two indices")? {
        pattern
            .insert(place(row), place(column))
            .map_err(|error| Failure::refused_at(format_args!("{}:{line}", file.display()), error))?;
    }
    Ok(pattern)
}

/// Writes requested pairs, which are in the factor's order, as a Matrix Market file in the order of the cells.
pub fn write_requests(
    file: &Path,
    requested: &SparseSymmetricPattern,
    permutation: &Permutation,
) -> Result<(), Failure> {
    let refused = |error| Failure::refused_at(file.display(), error);
    let cell = |place: usize| permutation.perm_to_orig[place];
    let mut pattern = SparseSymmetricPattern::new(requested.dimension);
    for (row, column) in &requested.pairs {
        pattern.insert(cell(*row), cell(*column)).map_err(refused)?;
    }
    pattern.write_matrix_market(file).map_err(|error| match error {
        RequestFileWriteError::Unwritable(error) => Failure::in_file(file, error),
        RequestFileWriteError::Refused(error) => refused(error),
    })
}

/// The row pairs of a file, for operators of so many rows.
pub fn row_pairs(file: &Path, rows: [usize; 2]) -> Result<Vec<(usize, usize)>, Failure> {
    let mut pairs = Vec::new();
    for (line, pair) in indices::<2>(file, &files::read(file)?, "two rows")? {
        for ((row, rows), operator) in pair.into_iter().zip(rows).zip(["--operator", "--with"]) {
            if row >= rows {
                return Err(Failure::refused_because(
                    format_args!("{}:{line}", file.display()),
                    Error::BrokenOperator,
                    format_args!("row {} of {operator} is not from 1 to {rows}", row + 1),
                ));
            }
        }
        pairs.push((pair[0], pair[1]));
    }
    Ok(pairs)
}

/// A cell of a row, counted from 0, with the ends of its weight and its line.
pub struct Range {
    pub line: usize,
    pub cell: usize,
    pub low: i64,
    pub high: i64,
}

/// The rows of a file by their numbers, counted from 0, each with its cells in the order of the lines.
pub fn ranges(file: &Path) -> Result<BTreeMap<usize, Vec<Range>>, Failure> {
    let weight = |line, word: &str| {
        word.parse::<i64>()
            .map_err(|_| Failure::at_line(file, line, format!("{word} is not a whole number of 64 bits")))
    };
    let mut rows = BTreeMap::<_, Vec<_>>::new();
    for (line, [row, cell, low, high]) in words(file, &files::read(file)?, "a row, a cell, a low and a high weight")? {
        rows.entry(index(file, line, row)?).or_default().push(Range {
            line,
            cell: index(file, line, cell)?,
            low: weight(line, low)?,
            high: weight(line, high)?,
        });
    }
    Ok(rows)
}

/// The cells of a track, counted from 0, each after its line.
pub fn track(file: &Path) -> Result<Vec<(usize, usize)>, Failure> {
    let lines = indices::<1>(file, &files::read(file)?, "one cell")?;
    Ok(lines.into_iter().map(|(line, [cell])| (line, cell)).collect())
}

/// A pivot, with its line.
pub struct Pivot {
    pub line: usize,
    pub value: f64,
}

/// The pivots of a file: one a line, or a Matrix Market array of one column.
pub fn pivots(file: &Path) -> Result<Vec<Pivot>, Failure> {
    let text = files::read(file)?;
    if is_matrix_market(&text) {
        return pivot_array(file, &text);
    }
    let lines = words(file, &text, "one pivot")?.into_iter();
    lines.map(|(line, [word])| pivot(file, line, word)).collect()
}

fn pivot(file: &Path, line: usize, word: &str) -> Result<Pivot, Failure> {
    match word.parse() {
        Ok(value) => Ok(Pivot { line, value }),
        Err(_) => Err(Failure::at_line(file, line, format!("{word} is not a number"))),
    }
}

/// The pivots of a Matrix Market array.
fn pivot_array(file: &Path, text: &[u8]) -> Result<Vec<Pivot>, Failure> {
    let mut lines = Lines::new(file, text);
    let header = lines.next()?.map_or("", |(_, line)| line).to_lowercase();
    let kinds = header.split_whitespace().skip(1).collect::<Vec<_>>();
    if !matches!(kinds[..], ["matrix", "array", "real" | "integer", "general"]) {
        let reason = "pivots are a list, or a file with the header %%MatrixMarket matrix array real general";
        return Err(Failure::at_line(file, 1, reason));
    }
    let Some((line, sizes)) = lines.next_filled(is_comment)? else {
        return Err(Failure::in_file(file, "the line with rows and columns is missing"));
    };
    let sizes = sizes.split_whitespace().map(|word| word.parse().ok());
    let count = match sizes.collect::<Option<Vec<usize>>>().as_deref() {
        Some([rows, 1]) => *rows,
        _ => {
            return Err(Failure::at_line(
                file,
                line,
                "pivots are an array of so many rows and 1 column",
            ))
        }
    };
    let mut found = Vec::new();
    while let Some((line, word)) = lines.next_filled(is_comment)? {
        found.push(pivot(file, line, word.trim())?);
    }
    if found.len() != count {
        let reason = format!("the file says it has {count} values, but has {}", found.len());
        return Err(Failure::in_file(file, reason));
    }
    Ok(found)
}

/// The permutation of a text, for a factor of this dimension; `file` is for messages.
pub fn permutation(file: &Path, text: &[u8], dimension: usize) -> Result<Permutation, Failure> {
    let orig_to_perm = indices::<1>(file, text, "one index")?
        .into_iter()
        .map(|(_, [place])| place)
        .collect::<Vec<_>>();
    let permutation = if orig_to_perm.len() == dimension {
        Permutation::from_orig_to_perm(orig_to_perm)
    } else {
        Err(Error::DimensionMismatch)
    };
    permutation.map_err(|error| Failure::refused_at(file.display(), error))
}
