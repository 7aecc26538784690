//! Factors of 2,049 to 4,096 columns: grids, chains and stars, and factors whose recurrence is exact.

use crate::body::Body;
use crate::grids::{chain, large_grid, some_pairs, star};
use crate::limits::{closed_size, diagonal, past_a_word, Limit, MOST};
use crate::values::{ordinary, some_order, whole};
use crate::writer::Writer;
use cases::factor::{Column, Factor};
use cases::grid::Order;
use cases::random::Random;
use std::io;

pub fn wide(writer: &mut Writer) -> io::Result<()> {
    for (width, height) in [(3, 683), (60, 50), (63, 65), (64, 64)] {
        for order in [Order::Nested, Order::Natural] {
            large_grid(writer, width, height, order)?;
        }
    }
    for n in [2049, 3000, 4095, 4096] {
        chain(writer, n)?;
        let star = star(n);
        writer.entries(&star, &[(0, 0)], Limit::Default)?;
        writer.entries(&star, &[(n - 1, 1), (n - 1, n - 1)], past_a_word(2))?;
        exact(writer, n)?;
        outputs(writer, n)?;
    }
    Ok(())
}

/// Ones on the diagonal, whole numbers below it, and no number past 2^53.
fn exact(writer: &mut Writer, n: usize) -> io::Result<()> {
    for (reach, most) in [(1, 1), (60, 1), (n, 2)] {
        let factor = one_below(&mut writer.random, n, reach, most);
        exact_entries(writer, &factor)?;
    }
    let factor = blocks(&mut writer.random, n);
    exact_entries(writer, &factor)?;
    let factor = arrow(&mut writer.random, n);
    exact_entries(writer, &factor)
}

/// All diagonals, with one of the limits about the closed set's size or past 32 bits; the farthest pair; pairs anywhere.
fn exact_entries(writer: &mut Writer, factor: &Factor) -> io::Result<()> {
    let n = factor.n;
    let all = diagonal(n);
    let size = closed_size(factor, &all);
    let limits = [Limit::At(size), Limit::At(size - 1), Limit::At(MOST), past_a_word(size), Limit::At(usize::MAX)];
    let limit = writer.random.pick(&limits);
    writer.entries(factor, &all, limit)?;
    writer.entries(factor, &[(n - 1, 0)], Limit::Default)?;
    let some = some_pairs(&mut writer.random, n);
    writer.entries(factor, &some, Limit::At(usize::MAX))
}

/// Each column has one row below its diagonal, at most so far away.
fn one_below(random: &mut Random, n: usize, reach: usize, most: i64) -> Factor {
    let mut columns: Vec<Column> = (0..n).map(|c| vec![(c, 1.0)]).collect();
    for (c, column) in columns.iter_mut().enumerate().take(n - 1) {
        let row = c + 1 + random.below(reach.min(n - 1 - c));
        column.push((row, whole(random, most)));
    }
    Factor::from_columns(&columns)
}

/// Full blocks of up to 12 columns, whose pattern is closed: the Rust goes by it.
fn blocks(random: &mut Random, n: usize) -> Factor {
    let mut columns: Vec<Column> = (0..n).map(|c| vec![(c, 1.0)]).collect();
    for (c, column) in columns.iter_mut().enumerate() {
        let end = n.min((c / 12 + 1) * 12);
        column.extend((c + 1..end).map(|r| (r, whole(random, 2))));
    }
    Factor::from_columns(&columns)
}

/// Each column has the last row.
fn arrow(random: &mut Random, n: usize) -> Factor {
    let mut columns: Vec<Column> = (0..n).map(|c| vec![(c, 1.0)]).collect();
    for column in columns.iter_mut().take(n - 1) {
        column.push((n - 1, whole(random, 1000)));
    }
    Factor::from_columns(&columns)
}

/// Diagonals in original order, variances, of operators with as many rows too, and pattern lists.
fn outputs(writer: &mut Writer, n: usize) -> io::Result<()> {
    let random = &mut writer.random;
    let body = Body::new().factor(&one_below(random, n, 60, 1));
    let order = some_order(random, n);
    writer.case("diagorig", &body.clone().numbers("perm", &order))?;
    let random = &mut writer.random;
    let mut term = |c: usize| (c, ordinary(random));
    let few: Vec<Column> = vec![vec![term(n - 1), term(0), term(n / 2)], vec![], vec![term(n - 1); 2]];
    writer.case("opvar", &body.clone().operator(n, &few))?;
    let random = &mut writer.random;
    let many: Vec<Column> = (0..n).map(|c| vec![(c, ordinary(random)), (random.below(n), ordinary(random))]).collect();
    writer.case("opvar", &body.clone().operator(n, &many))?;
    writer.case("patfactor", &body)?;
    writer.case("patoperator", &Body::new().operator(n, &few))?;
    writer.case("patoperator", &Body::new().operator(n, &many))
}
