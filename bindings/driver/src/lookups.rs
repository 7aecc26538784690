//! `benchmark-lookups`: the time of a lookup beside that of the Rust's own.
//!
//! Looked up in are the results of all diagonals of grids: in natural order the factor is banded, and each column of its
//! result one run of rows; in the order of nested dissection columns have gaps. The library is called as users of the Rust
//! crate call it: by `get`, which goes without checks, and by `lent::get`, which checks the column. The Rust's `get` is
//! written out here as it stands there, over the same entries: a list of its own for each column, and `binary_search`.
//! All must find the same. Timed is processor time for all pairs one after another, in turn, the best of the runs. Tables
//! are in Markdown.

use crate::benchmark::{machine, processor_ms};
use crate::grid::grid;
use crate::random::Random;
use redstartgilt::{lent, selected_inverse_entries, CholeskyFactor, SparseSelectedInverse, SparseSymmetricPattern};
use std::hint::black_box;
use std::io;

/// So many lookups are timed together.
const LOOKUPS: usize = 1 << 16;

struct RustColumn {
    rows: Vec<usize>,
    values: Vec<f64>,
}

struct RustInverse {
    columns: Vec<RustColumn>,
}

impl RustInverse {
    fn new(inverse: &SparseSelectedInverse) -> Self {
        let empty = || RustColumn { rows: Vec::new(), values: Vec::new() };
        let mut columns: Vec<RustColumn> = (0..inverse.dimension()).map(|_| empty()).collect();
        for (row, column, value) in inverse.entries() {
            columns[column].rows.push(row);
            columns[column].values.push(value);
        }
        RustInverse { columns }
    }

    /// A call, as it is for users of the Rust's crate.
    #[inline(never)]
    fn get(&self, row: usize, column: usize) -> Option<f64> {
        let (row, column) = if row >= column { (row, column) } else { (column, row) };
        let column = self.columns.get(column)?;
        let index = column.rows.binary_search(&row).ok()?;
        column.values.get(index).copied()
    }
}

/// The result of all diagonals of a grid.
fn result_of(side: usize, nested: bool) -> io::Result<SparseSelectedInverse> {
    let (n, grid) = (side * side, grid(side, nested));
    let factor = CholeskyFactor::new(n, grid.starts, grid.rows, grid.values).map_err(io::Error::other)?;
    let selected = selected_inverse_entries(&factor, &SparseSymmetricPattern::diagonal(n)).map_err(io::Error::other)?;
    selected.inverse.ok_or_else(|| io::Error::other("the closed set passes the limit"))
}

type Pair = (usize, usize);

fn some_pairs(mut pair: impl FnMut() -> Pair) -> Vec<Pair> {
    (0..LOOKUPS).map(|_| pair()).collect()
}

/// Pairs to be looked up, by what they are.
fn pairs_of(inverse: &SparseSelectedInverse) -> [(&'static str, Vec<Pair>); 5] {
    let mut random = Random::new(1);
    let n = inverse.dimension();
    let entries: Vec<Pair> = inverse.entries().map(|(row, column, _)| (row, column)).collect();
    let stored = some_pairs(|| random.pick(&entries));
    let any = some_pairs(|| {
        let (a, b) = (random.below(n), random.below(n));
        (a.max(b), a.min(b))
    });
    let diagonals = some_pairs(|| {
        let cell = random.below(n);
        (cell, cell)
    });
    let mut either = |pairs: &[Pair]| {
        let exchanged = |&(row, column): &Pair| if random.chance(50) { (row, column) } else { (column, row) };
        pairs.iter().map(exchanged).collect()
    };
    let (stored_either, any_either) = (either(&stored), either(&any));
    [
        ("diagonals", diagonals),
        ("stored, row ≥ column", stored),
        ("stored, either order", stored_either),
        ("any, row ≥ column", any),
        ("any, either order", any_either),
    ]
}

/// The time of looking up all pairs, in ns for each.
fn time_of(pairs: &[Pair], get: impl Fn(usize, usize) -> Option<f64>) -> f64 {
    let start = processor_ms();
    let mut sum = 0.0;
    for &(row, column) in black_box(pairs) {
        sum += get(row, column).unwrap_or(0.0);
    }
    black_box(sum);
    (processor_ms() - start) * 1e6 / pairs.len() as f64
}

struct Row {
    found: usize,
    ours: f64,
    checked: f64,
    rust: f64,
}

/// Compares what is found at the pairs, then times it.
fn row(inverse: &SparseSelectedInverse, rust: &RustInverse, pairs: &[Pair], runs: usize) -> io::Result<Row> {
    let ours = |row, column| inverse.get(row, column);
    let checked = |row, column| lent::get(inverse.lists(), row, column).ok();
    let rust = |row, column| rust.get(row, column);
    let mut found = 0;
    for &(row, column) in pairs {
        let [expected, others @ ..] =
            [rust(row, column), ours(row, column), checked(row, column)].map(|value| value.map(f64::to_bits));
        if others != [expected; 2] {
            return Err(io::Error::other(format!("the lookups of ({row}, {column}) differ")));
        }
        found += usize::from(expected.is_some());
    }
    let mut best = Row { found, ours: f64::INFINITY, checked: f64::INFINITY, rust: f64::INFINITY };
    for _ in 0..runs {
        best.ours = best.ours.min(time_of(pairs, ours));
        best.checked = best.checked.min(time_of(pairs, checked));
        best.rust = best.rust.min(time_of(pairs, rust));
    }
    Ok(best)
}

pub fn benchmark_lookups(runs: usize) -> io::Result<()> {
    println!("{}; processor time", machine());
    rows_of_lookups(runs)
}

/// The table, with its title.
pub fn rows_of_lookups(runs: usize) -> io::Result<()> {
    println!("\nLookups, ns for each of {LOOKUPS}, best of {runs} runs\n");
    println!("| grid | n | entries | pairs | found | `get` | checked | Rust | `get` / Rust | checked / Rust |");
    println!("|---|---|---|---|---|---|---|---|---|---|");
    for (nested, side) in [false, true].into_iter().flat_map(|nested| [16, 32, 45, 64].map(|side| (nested, side))) {
        let inverse = result_of(side, nested)?;
        let rust = RustInverse::new(&inverse);
        for (what, pairs) in pairs_of(&inverse) {
            let row = row(&inverse, &rust, &pairs, runs)?;
            println!(
                "| {side}x{side} {} | {} | {} | {what} | {:.0} % | {:.1} | {:.1} | {:.1} | {:.2} | {:.2} |",
                if nested { "nested" } else { "natural" },
                inverse.dimension(),
                inverse.len(),
                100.0 * row.found as f64 / pairs.len() as f64,
                row.ours,
                row.checked,
                row.rust,
                row.ours / row.rust,
                row.checked / row.rust
            );
        }
    }
    Ok(())
}
