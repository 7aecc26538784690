//! Factors of grids, chains, stars and full triangles; those of more than 2,048 columns are in wide.rs.

use crate::body::{Body, Pair};
use crate::limits::{all_limits, closed_size, diagonal, jumbled, some_limit, some_requests, Limit};
use crate::values::ordinary;
use crate::writer::Writer;
use cases::factor::{Column, Factor};
use cases::grid::{grid, Grid, Order};
use cases::random::Random;
use std::io;

pub fn diagonal_body(grid: &Grid) -> Body {
    Body::new().factor(&grid.factor).numbers("perm", &grid.orig_to_perm)
}

/// Grids of at most 256 cells.
pub fn small(writer: &mut Writer) -> io::Result<()> {
    let sizes = [(1, 1), (2, 1), (2, 2), (3, 3), (4, 3), (5, 5), (7, 4), (8, 8), (10, 10), (16, 3), (12, 12), (16, 16)];
    for (width, height) in sizes {
        for order in [Order::Natural, Order::Nested] {
            for even in [true, false, false] {
                let random = (!even).then_some(&mut writer.random);
                let grid = grid(width, height, order, random);
                small_entries(writer, &grid.factor)?;
                writer.case("diagorig", &diagonal_body(&grid))?;
            }
        }
    }
    Ok(())
}

fn small_entries(writer: &mut Writer, factor: &Factor) -> io::Result<()> {
    let n = factor.n;
    let all = diagonal(n);
    for limit in all_limits(closed_size(factor, &all)) {
        writer.entries(factor, &all, limit)?;
    }
    let pattern: Vec<Pair> = (0..n).flat_map(|c| factor.column(c).map(move |(r, _)| (r, c))).collect();
    let pattern = jumbled(&mut writer.random, &pattern);
    for requests in [&pattern[..], &[(0, 0)], &[(n - 1, 0)]] {
        writer.entries(factor, requests, Limit::Default)?;
    }
    for _ in 0..3 {
        let requests = some_requests(&mut writer.random, n);
        let limit = some_limit(&mut writer.random, closed_size(factor, &requests));
        writer.entries(factor, &requests, limit)?;
    }
    if factor.rows.len() > n {
        one_dropped(writer, factor)?;
    }
    Ok(())
}

/// One entry below the diagonal is 0, so that the pattern may no longer be closed.
fn one_dropped(writer: &mut Writer, factor: &Factor) -> io::Result<()> {
    let mut other = factor.clone();
    let dropped = loop {
        let place = writer.random.below(factor.rows.len());
        if !factor.starts.contains(&place) {
            break place;
        }
    };
    other.values[dropped] = 0.0;
    writer.entries(&other, &diagonal(factor.n), Limit::Default)
}

/// Grids, chains and stars of 512 to 2,048 cells or columns.
pub fn large(writer: &mut Writer) -> io::Result<()> {
    for (width, height) in [(32, 16), (32, 32), (64, 32)] {
        for order in [Order::Nested, Order::Natural] {
            large_grid(writer, width, height, order)?;
        }
    }
    for n in [512, 1024, 2048] {
        chain(writer, n)?;
        let star = star(n);
        let all = n * (n + 1) / 2;
        writer.entries(&star, &[(0, 0)], Limit::Default)?;
        writer.entries(&star, &[(0, 0)], Limit::At(all - 1))?;
        if n == 512 {
            writer.entries(&star, &[(0, 0)], Limit::At(all))?;
        }
    }
    Ok(())
}

pub fn large_grid(writer: &mut Writer, width: usize, height: usize, order: Order) -> io::Result<()> {
    let grid = grid(width, height, order, Some(&mut writer.random));
    let (factor, n) = (&grid.factor, grid.factor.n);
    let all = diagonal(n);
    let size = closed_size(factor, &all);
    writer.entries(factor, &all, Limit::Default)?;
    writer.entries(factor, &all, Limit::At(size - 1))?;
    writer.entries(factor, &[(n - 1, 0)], Limit::Default)?;
    let some = some_pairs(&mut writer.random, n);
    writer.entries(factor, &some, Limit::Default)?;
    writer.case("diagorig", &diagonal_body(&grid))
}

/// Twenty pairs anywhere.
pub fn some_pairs(random: &mut Random, n: usize) -> Vec<Pair> {
    (0..20).map(|_| (random.below(n), random.below(n))).collect()
}

/// A factor whose every column has its diagonal and the next row.
pub fn chain(writer: &mut Writer, n: usize) -> io::Result<()> {
    let random = &mut writer.random;
    let mut columns: Vec<Column> =
        (0..n - 1).map(|c| vec![(c, 1.0 + random.unit()), (c + 1, ordinary(random))]).collect();
    columns.push(vec![(n - 1, 1.0)]);
    let factor = Factor::from_columns(&columns);
    writer.entries(&factor, &[(0, 0)], Limit::Default)?;
    writer.entries(&factor, &[(n - 1, 0)], Limit::At(n))?;
    writer.entries(&factor, &[(n - 1, 0)], Limit::At(n - 1))?;
    writer.entries(&factor, &diagonal(n), Limit::Default)
}

/// A factor whose first column is full, the others diagonals alone: the closed set of (0,0) is the whole triangle.
pub fn star(n: usize) -> Factor {
    let mut columns: Vec<Column> = (0..n).map(|c| vec![(c, 2.0)]).collect();
    columns[0] = (0..n).map(|r| (r, 1.0)).collect();
    Factor::from_columns(&columns)
}

/// The whole triangles of 2,048 and 4,096, and full factors on both sides of 1,048,576 stored entries.
pub fn huge(writer: &mut Writer) -> io::Result<()> {
    for n in [2048, 4096] {
        writer.entries(&star(n), &[(0, 0)], Limit::At(n * (n + 1) / 2))?;
    }
    for n in [1447, 1448] {
        let entry = |c: usize, r: usize| (r, if r == c { 40.0 } else { 1.0 });
        let columns: Vec<Column> = (0..n).map(|c| (c..n).map(|r| entry(c, r)).collect()).collect();
        let factor = Factor::from_columns(&columns);
        writer.entries(&factor, &[(n - 1, n - 1)], Limit::Default)?;
        writer.entries(&factor, &[(n - 1, n - 40)], Limit::Default)?;
    }
    Ok(())
}

/// The cases of the benchmark.
pub fn timing(writer: &mut Writer) -> io::Result<()> {
    for side in [16, 32, 45, 64] {
        for (order, word) in [(Order::Natural, "natural"), (Order::Nested, "nd")] {
            let grid = grid(side, side, order, None);
            let (factor, n) = (&grid.factor, grid.factor.n);
            let name = |what: &str| format!("{side}x{side}-{word}-{what}");
            writer.named("diagorig", &name("diag"), &diagonal_body(&grid))?;
            writer.named_entries(&name("00"), factor, &[(0, 0)], Limit::Default, &[])?;
            writer.named_entries(&name("last-0"), factor, &[(n - 1, 0)], Limit::Default, &[])?;
            let cell = |x: usize, y: usize| grid.orig_to_perm[y * side + x];
            for (what, rows) in [
                ("stencils", stencils(side, cell)),
                ("line", vec![(0..side).map(|x| (cell(x, side / 2), 1.0)).collect()]),
                ("blocks", blocks(side, cell)),
            ] {
                writer.named("opvar", &name(what), &Body::new().factor(factor).operator(n, &rows))?;
            }
        }
    }
    Ok(())
}

/// An operator with a row for each cell: itself, and its neighbours with weight 0.25.
fn stencils(side: usize, cell: impl Fn(usize, usize) -> usize) -> Vec<Column> {
    let row = |x: usize, y: usize| {
        let mut row = vec![(cell(x, y), 1.0)];
        let left = (x > 0).then(|| cell(x - 1, y));
        let right = (x + 1 < side).then(|| cell(x + 1, y));
        let up = (y > 0).then(|| cell(x, y - 1));
        let down = (y + 1 < side).then(|| cell(x, y + 1));
        row.extend([left, right, up, down].into_iter().flatten().map(|neighbour| (neighbour, 0.25)));
        row
    };
    (0..side * side).map(|k| row(k % side, k / side)).collect()
}

/// An operator whose rows are the means of blocks of 8 by 8 cells, at most eight of them.
fn blocks(side: usize, cell: impl Fn(usize, usize) -> usize) -> Vec<Column> {
    let across = side / 8;
    let row = |x: usize, y: usize| (0..64).map(|k| (cell(x + k % 8, y + k / 8), 1.0 / 64.0)).collect();
    (0..8.min(across * across)).map(|k| row(k % across * 8, k / across * 8)).collect()
}
