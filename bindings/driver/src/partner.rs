//! `compare-export`: a unit lower factor with pivots that another library has made, read from its files, and the entries
//! beside a dense inverse of the matrix that it was made from.
//!
//! The folder's files are those of ../../partner/export.c: Q.mtx, L.mtx, D.txt and P.txt, indices from 1.

use crate::benchmark::lent;
use crate::call::Call;
use crate::function::Function;
use crate::ldl_factors::Columns;
use crate::list::List;
use crate::rules;
use crate::subjects::{EntryLists, RequestLists};
use crate::whole_factors::lists;
use std::fs;
use std::io;
use std::path::Path;

/// A relative difference from the dense inverse above this is one. The matrices of grids have a condition of at most 33, and
/// entries of both inverses are then right to some thousand roundings, 2^-53 each.
const MOST: f64 = 1e-12;

/// The lines of a file but for comments, as words.
fn words(folder: &Path, name: &str) -> io::Result<Vec<Vec<f64>>> {
    let path = folder.join(name);
    let wrong = |why: &str| io::Error::other(format!("{}: {why}", path.display()));
    let text = fs::read_to_string(&path).map_err(|error| wrong(&error.to_string()))?;
    let lines = text.lines().filter(|line| !line.starts_with('%'));
    let numbers = lines.map(|line| line.split_ascii_whitespace().map(str::parse).collect::<Result<_, _>>());
    numbers.collect::<Result<_, _>>().map_err(|_| wrong("a line has a word that is no number"))
}

/// The entries of a Matrix Market file by column, rows ascending.
fn matrix(folder: &Path, name: &str) -> io::Result<Columns> {
    let lines = words(folder, name)?;
    let wrong = || io::Error::other(format!("{name} is not of the form that an export has"));
    let [rows, columns, count] = lines.first().ok_or_else(wrong)?[..] else { return Err(wrong()) };
    if rows != columns || lines.len() != count as usize + 1 {
        return Err(wrong());
    }
    let mut matrix: Columns = vec![Vec::new(); columns as usize];
    for line in &lines[1..] {
        let [row, column, value] = line[..] else { return Err(wrong()) };
        if !(1.0..=rows).contains(&row) || !(1.0..=columns).contains(&column) {
            return Err(wrong());
        }
        matrix[column as usize - 1].push((row as usize - 1, value));
    }
    matrix.iter_mut().for_each(|column| column.sort_by_key(|e| e.0));
    Ok(matrix)
}

/// One number a line.
fn numbers(folder: &Path, name: &str) -> io::Result<Vec<f64>> {
    words(folder, name)?
        .into_iter()
        .map(
            |line| {
                if line.len() == 1 {
                    Ok(line[0])
                } else {
                    Err(io::Error::other(format!("{name}: one number a line")))
                }
            },
        )
        .collect()
}

/// The inverse of a symmetric positive definite matrix of which the lower triangle is given, by elimination.
fn dense_inverse(lower: &Columns) -> Vec<Vec<f64>> {
    let n = lower.len();
    let mut a = vec![vec![0.0; n]; n];
    for (column, entries) in lower.iter().enumerate() {
        for &(row, value) in entries {
            (a[row][column], a[column][row]) = (value, value);
        }
    }
    for k in 0..n {
        let pivot = std::mem::replace(&mut a[k][k], 1.0);
        a[k].iter_mut().for_each(|x| *x /= pivot);
        let line = a[k].clone();
        for (_, other) in a.iter_mut().enumerate().filter(|(i, _)| *i != k) {
            let factor = std::mem::replace(&mut other[k], 0.0);
            if factor != 0.0 {
                other.iter_mut().zip(&line).for_each(|(x, y)| *x -= factor * y);
            }
        }
    }
    a
}

/// The greatest relative difference of some entries, and how many there are.
#[derive(Default)]
struct Seen {
    count: usize,
    greatest: f64,
}

impl Seen {
    fn beside(&mut self, entry: f64, dense: f64) {
        self.count += 1;
        // a NaN stays
        let apart = ((entry - dense) / dense).abs();
        let stays = self.greatest.is_nan() || apart <= self.greatest;
        self.greatest = if stays { self.greatest } else { apart };
    }
}

/// The number of differences: the call's own, and one where an entry is too far from the dense inverse. `printed`, where given,
/// has the variances that the command printed, a line of names and then cell and variance a line.
pub fn compare_export(folder: &Path, printed: Option<&Path>) -> io::Result<usize> {
    let (lower, factor) = (matrix(folder, "Q.mtx")?, matrix(folder, "L.mtx")?);
    let (pivots, places) = (numbers(folder, "D.txt")?, numbers(folder, "P.txt")?);
    let n = lower.len();
    if places.len() != n || places.iter().any(|&place| !(1.0..=n as f64).contains(&place)) {
        return Err(io::Error::other("P.txt does not have a place for each cell"));
    }
    let place = |cell: usize| places[cell] as usize - 1;
    // every pair of cells at which the matrix has an entry
    let pairs: Vec<(usize, usize)> =
        lower.iter().enumerate().flat_map(|(column, entries)| entries.iter().map(move |e| (e.0, column))).collect();
    let stored = factor.iter().map(Vec::len).sum::<usize>();
    let on_diagonal = factor.iter().enumerate().filter(|(c, column)| column.iter().any(|e| e.0 == *c)).count();
    let mut call = lent(Call {
        function: Function::LdlEntries,
        factor: lists(&factor),
        pivots: List::new(&pivots),
        requests: RequestLists {
            dimension: n,
            rows: List::made(pairs.len(), |at| place(pairs[at].0) as u32),
            columns: List::made(pairs.len(), |at| place(pairs[at].1) as u32),
        },
        ..Call::default()
    });
    let expected = rules::expected(call.clone());
    let reply = call.make();
    let found = expected.differences(&reply, &call);
    found.iter().for_each(|what| println!("DIFFERENT {what}"));
    if !reply.complete() {
        return Err(io::Error::other(format!("no entries: {reply:?}")));
    }
    let entries = EntryLists {
        starts: call.result.starts.clone(),
        rows: call.result.rows.clone(),
        values: call.result.values.clone(),
    };
    let dense = dense_inverse(&lower);
    let (mut variances, mut covariances) = (Seen::default(), Seen::default());
    for &(row, column) in &pairs {
        let entry = rules::entry(&entries, place(row), place(column)).expect("asked for");
        let seen = if row == column { &mut variances } else { &mut covariances };
        seen.beside(entry, dense[row][column]);
    }
    println!("n {n}: {stored} entries stored, {on_diagonal} of them on the diagonal; {} pairs computed", reply.closure);
    println!(
        "beside the dense inverse: {} variances, at most {:.1e} apart; {} covariances of cells side by side, at most {:.1e}",
        variances.count, variances.greatest, covariances.count, covariances.greatest
    );
    let far = [&variances, &covariances].iter().filter(|seen| seen.greatest.is_nan() || seen.greatest > MOST).count();
    let unlike = match printed {
        Some(file) => printed_otherwise(file, |cell| rules::entry(&entries, place(cell), place(cell)), n)?,
        None => 0,
    };
    Ok(found.len() + far + unlike)
}

/// How many of the variances that the command printed are other floats than these.
fn printed_otherwise(file: &Path, variance: impl Fn(usize) -> Option<f64>, n: usize) -> io::Result<usize> {
    let text = fs::read_to_string(file)?;
    let lines: Vec<&str> = text.lines().skip(1).collect();
    let same = |cell: usize| {
        let printed = lines.get(cell).and_then(|line| line.split(',').nth(1)).and_then(|word| word.parse::<f64>().ok());
        printed.is_some_and(|printed| Some(printed.to_bits()) == variance(cell).map(f64::to_bits))
    };
    let other = (0..n).filter(|&cell| !same(cell)).count() + usize::from(lines.len() != n);
    println!("printed by the command: {} variances, {other} other than the library's", lines.len());
    Ok(other)
}
