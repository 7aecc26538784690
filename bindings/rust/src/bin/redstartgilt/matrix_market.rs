//! Factors, operators and precision matrices from Matrix Market files.

use crate::failure::Failure;
use crate::files;
use crate::lines::Lines;
use redstartgilt::{CholeskyFactor, Error, SparseRowOperator, WholeFactor, MAX_DIMENSION};
use std::path::Path;

/// What a file's matrix is to be.
#[derive(Debug, Clone, Copy, PartialEq, Eq)]
pub enum Kind {
    /// Square.
    Factor,
    /// Square, of whole numbers.
    WholeFactor,
    /// General, of any size.
    Operator,
    /// Square, symmetric or general, as coordinates or as an array.
    Precision,
}

/// A file's matrix, its entries counted from 0, by column then row, none twice.
#[derive(Debug, Clone, PartialEq)]
pub struct Matrix<V> {
    pub rows: usize,
    columns: usize,
    pub entries: Vec<Entry<V>>,
    /// Whether the file has the lower triangle of a symmetric matrix.
    pub lower_only: bool,
}

impl<V: Copy> Matrix<V> {
    /// The entries (row, column, value).
    pub fn triplets(&self) -> Vec<(usize, usize, V)> {
        let entries = self.entries.iter();
        entries.map(|entry| (entry.row, entry.column, entry.value)).collect()
    }
}

/// An entry, with its line in the file.
#[derive(Debug, Clone, PartialEq)]
pub struct Entry<V> {
    pub column: usize,
    pub row: usize,
    pub value: V,
    pub line: usize,
}

/// The factor of a file, and its matrix.
pub fn factor(file: &Path) -> Result<(CholeskyFactor, Matrix<f64>), Failure> {
    let matrix = read(file, Kind::Factor)?;
    let factor = CholeskyFactor::from_triplets(matrix.rows, &matrix.triplets())
        .map_err(|error| refused_factor(file, &matrix, error))?;
    Ok((factor, matrix))
}

/// The matrix of a file that has a factor with ones on its diagonal, stored or not.
pub fn unit_factor(file: &Path) -> Result<Matrix<f64>, Failure> {
    read(file, Kind::Factor)
}

/// The factor of whole numbers of a file, and its matrix.
pub fn whole_factor(file: &Path) -> Result<(WholeFactor, Matrix<i64>), Failure> {
    let matrix = read(file, Kind::WholeFactor)?;
    let factor = WholeFactor::from_triplets(matrix.rows, &matrix.triplets())
        .map_err(|error| Failure::refused_at(file.display(), error))?;
    Ok((factor, matrix))
}

/// The precision matrix of a file.
pub fn precision<V: Value>(file: &Path) -> Result<Matrix<V>, Failure> {
    read(file, Kind::Precision)
}

/// The refusal of a factor; that of an entry which is not finite, or of a diagonal beside pivots, with its line, and counted
/// from 1.
pub fn refused_factor(file: &Path, matrix: &Matrix<f64>, error: Error) -> Failure {
    let mut entries = matrix.entries.iter();
    let at_fault = match error {
        Error::NotFiniteEntry(place) => entries.find(|entry| place == Some((entry.row, entry.column))),
        Error::PivotDiagonalNotOne => {
            entries.find(|entry| entry.row == entry.column && ![0.0, 1.0].contains(&entry.value))
        }
        _ => None,
    };
    let Some(entry) = at_fault else {
        return Failure::refused_at(file.display(), error);
    };
    let place = format!("{}:{}", file.display(), entry.line);
    let (row, column) = (entry.row + 1, entry.column + 1);
    match error {
        Error::PivotDiagonalNotOne => Failure::refused_because(
            place,
            error,
            format_args!(
                "column {column} of the factor has the diagonal {:?}, and beside pivots it must be 1, or not be stored",
                entry.value
            ),
        ),
        _ => Failure::refused_because(
            place,
            error,
            format_args!("entry ({row}, {column}) of the factor is not finite"),
        ),
    }
}

/// The operator of a file, for a factor of so many cells: the terms of each row by cell.
pub fn operator(file: &Path, cells: usize) -> Result<SparseRowOperator, Failure> {
    let matrix = read::<f64>(file, Kind::Operator)?;
    if matrix.rows <= MAX_DIMENSION && matrix.columns != cells {
        return Err(Failure::refused_because(
            file.display(),
            Error::DimensionMismatch,
            format_args!("the operator has {} columns, the factor {cells} cells", matrix.columns),
        ));
    }
    // More rows than are allowed are refused without lists for each of them.
    let mut rows = vec![Vec::new(); matrix.rows.min(MAX_DIMENSION + 1)];
    for entry in matrix.entries {
        if let Some(terms) = rows.get_mut(entry.row) {
            terms.push((entry.column, entry.value));
        }
    }
    SparseRowOperator::new(matrix.columns, rows).map_err(|error| Failure::refused_at(file.display(), error))
}

/// The kinds of header that are read.
pub struct Header {
    whole_numbers: bool,
    lower_only: bool,
    array: bool,
}

/// A value as it is written, or why it is none.
pub trait Value: Copy + Default + PartialEq {
    fn read(word: &str, kind: Kind, header: &Header) -> Result<Self, String>;
}

impl Value for f64 {
    fn read(word: &str, kind: Kind, header: &Header) -> Result<Self, String> {
        if header.whole_numbers {
            let whole = i64::read(word, kind, header)?;
            return if whole as f64 as i128 == i128::from(whole) {
                Ok(whole as f64)
            } else {
                Err(format!("value {word} has too many digits for a 64-bit float"))
            };
        }
        match word.parse::<f64>() {
            // Of a factor the library decides, which drops what is above the diagonal.
            Ok(number) if number.is_finite() || kind == Kind::Factor => Ok(number),
            Ok(_) => Err(format!("value {word} is not finite")),
            Err(_) => Err(format!("value {word} is not a number")),
        }
    }
}

impl Value for i64 {
    fn read(word: &str, _: Kind, header: &Header) -> Result<Self, String> {
        let not_whole = |_| format!("value {word} is not a whole number of 64 bits");
        // In a real file a whole number may be written as 4.0 or 1e3.
        match word.parse::<f64>() {
            Ok(number) if !header.whole_numbers && number.fract() == 0.0 && number.abs() < 2f64.powi(63) => {
                Ok(number as i64)
            }
            _ => word.parse().map_err(not_whole),
        }
    }
}

fn read<V: Value>(file: &Path, kind: Kind) -> Result<Matrix<V>, Failure> {
    let text = match kind {
        Kind::Precision => files::read_apart(file)?,
        _ => files::read(file)?,
    };
    parse(file, &text, kind)
}

/// The matrix of a text; `file` is for messages.
fn parse<V: Value>(file: &Path, text: &[u8], kind: Kind) -> Result<Matrix<V>, Failure> {
    let mut lines = Lines::new(file, text);
    let Some((number, line)) = lines.next()? else {
        return Err(Failure::in_file(file, "the file is empty"));
    };
    let header = header(file, number, line, kind)?;
    let Some((number, line)) = lines.next_filled(is_comment)? else {
        return Err(Failure::in_file(
            file,
            "the line with rows, columns and entries is missing",
        ));
    };
    if header.array {
        return array(file, lines, &header, array_size(file, number, line)?);
    }
    let (rows, columns, count) = sizes(file, number, line, kind)?;
    let mut entries = Vec::new();
    while let Some((number, line)) = lines.next_filled(is_comment)? {
        if entries.len() == count {
            return Err(Failure::at_line(
                file,
                number,
                format!("more entries than the {count} that the file says it has"),
            ));
        }
        entries.push(entry(file, number, line, kind, &header, [rows, columns])?);
    }
    if entries.len() < count {
        return Err(Failure::in_file(
            file,
            format!("the file says it has {count} entries, but has {}", entries.len()),
        ));
    }
    entries.sort_by_key(|entry| (entry.column, entry.row, entry.line));
    for pair in entries.windows(2) {
        if (pair[0].column, pair[0].row) == (pair[1].column, pair[1].row) {
            return Err(Failure::at_line(
                file,
                pair[1].line,
                format!(
                    "entry ({}, {}) is there twice, first in line {}",
                    pair[1].row + 1,
                    pair[1].column + 1,
                    pair[0].line
                ),
            ));
        }
    }
    Ok(Matrix {
        rows,
        columns,
        entries,
        lower_only: header.lower_only,
    })
}

/// The size of a square array.
fn array_size(file: &Path, number: usize, line: &str) -> Result<usize, Failure> {
    let numbers = line.split_whitespace().map(|word| word.parse().ok());
    match numbers.collect::<Option<Vec<usize>>>().as_deref() {
        Some([rows, columns]) if rows == columns => Ok(*rows),
        Some([rows, columns]) => Err(not_square(file, number, Kind::Precision, *rows, *columns)),
        _ => Err(Failure::at_line(
            file,
            number,
            "rows and columns of an array must be two whole numbers",
        )),
    }
}

/// The entries of a precision matrix that is an array: the values of each column, one a line, from the diagonal on where
/// only the lower triangle is stored. Zeros are left out.
fn array<V: Value>(file: &Path, mut lines: Lines<'_>, header: &Header, n: usize) -> Result<Matrix<V>, Failure> {
    let mut entries = Vec::new();
    let (mut row, mut column) = (0, 0);
    while let Some((line, word)) = lines.next_filled(is_comment)? {
        if column >= n {
            return Err(Failure::at_line(
                file,
                line,
                format!("more values than an array of {n} rows and columns has"),
            ));
        }
        let value =
            V::read(word.trim(), Kind::Precision, header).map_err(|reason| Failure::at_line(file, line, reason))?;
        if value != V::default() {
            entries.push(Entry {
                column,
                row,
                value,
                line,
            });
        }
        row += 1;
        if row == n {
            column += 1;
            row = if header.lower_only { column } else { 0 };
        }
    }
    if column < n {
        return Err(Failure::in_file(
            file,
            format!(
                "values of the array are missing: it ends in column {} of {n}",
                column + 1
            ),
        ));
    }
    Ok(Matrix {
        rows: n,
        columns: n,
        entries,
        lower_only: header.lower_only,
    })
}

/// What a matrix that is not square was to be, and its sizes.
fn not_square(file: &Path, number: usize, kind: Kind, rows: usize, columns: usize) -> Failure {
    let what = match kind {
        Kind::Precision => "a precision matrix",
        _ => "a factor",
    };
    Failure::at_line(
        file,
        number,
        format!("{what} is square, but this has {rows} rows and {columns} columns"),
    )
}

fn is_comment(line: &str) -> bool {
    line.starts_with('%')
}

fn header(file: &Path, number: usize, line: &str, kind: Kind) -> Result<Header, Failure> {
    let fail = |reason: String| Err(Failure::at_line(file, number, reason));
    let words = line.split_whitespace().map(str::to_lowercase).collect::<Vec<_>>();
    let words = words.iter().map(String::as_str).collect::<Vec<_>>();
    let ["%%matrixmarket", object, format, field, symmetry] = words[..] else {
        return fail(
            "the first line must be a header such as %%MatrixMarket matrix coordinate real general".to_string(),
        );
    };
    let array = kind == Kind::Precision && format == "array";
    if object != "matrix" || format != "coordinate" && !array {
        return fail(format!(
            "a header with \"matrix coordinate\" is needed, not \"{object} {format}\""
        ));
    }
    let whole_numbers = match field {
        "real" if kind == Kind::WholeFactor => {
            return fail("with --whole values must be integer, not real".to_string());
        }
        "real" => false,
        "integer" => true,
        _ => return fail(format!("values must be real or integer, not {field}")),
    };
    let lower_only = match symmetry {
        "general" => false,
        "symmetric" if kind == Kind::Operator => return fail("an operator must be general, not symmetric".to_string()),
        "symmetric" => true,
        _ if kind == Kind::Precision => {
            return fail(format!(
                "a precision matrix must be symmetric or general, not {symmetry}"
            ));
        }
        _ => return fail(format!("the matrix must be general or symmetric, not {symmetry}")),
    };
    Ok(Header {
        whole_numbers,
        lower_only,
        array,
    })
}

fn sizes(file: &Path, number: usize, line: &str, kind: Kind) -> Result<(usize, usize, usize), Failure> {
    let words = line.split_whitespace().collect::<Vec<_>>();
    let numbers = words
        .iter()
        .map(|word| word.parse().ok())
        .collect::<Option<Vec<usize>>>();
    match numbers.as_deref() {
        Some([rows, columns, _]) if kind != Kind::Operator && rows != columns => {
            Err(not_square(file, number, kind, *rows, *columns))
        }
        Some([rows, columns, count]) => Ok((*rows, *columns, *count)),
        _ => Err(Failure::at_line(
            file,
            number,
            "rows, columns and entries must be three whole numbers",
        )),
    }
}

fn entry<V: Value>(
    file: &Path,
    number: usize,
    line: &str,
    kind: Kind,
    header: &Header,
    sizes: [usize; 2],
) -> Result<Entry<V>, Failure> {
    let fail = |reason: String| Err(Failure::at_line(file, number, reason));
    let words = line.split_whitespace().collect::<Vec<_>>();
    let [row, column, value] = words[..] else {
        return fail(format!(
            "an entry is row, column and value, but this line has {} words",
            words.len()
        ));
    };
    let mut places = [0; 2];
    for ((place, size), (name, word)) in places.iter_mut().zip(sizes).zip([("row", row), ("column", column)]) {
        *place = match word.parse::<usize>() {
            Ok(index) if (1..=size).contains(&index) => index - 1,
            Ok(index) => return fail(format!("{name} {index} is not from 1 to {size}")),
            Err(_) => return fail(format!("{name} {word} is not a whole number from 1")),
        };
    }
    let [row, column] = places;
    if header.lower_only && row < column {
        return fail(format!(
            "entry ({}, {}) is above the diagonal of a symmetric file",
            row + 1,
            column + 1
        ));
    }
    let value = match V::read(value, kind, header) {
        Ok(value) => value,
        Err(reason) => return fail(reason),
    };
    Ok(Entry {
        column,
        row,
        value,
        line: number,
    })
}
