//! Diagonals in original order, variances of operators, and the default limit.

use crate::body::Body;
use crate::limits::{diagonal, Limit};
use crate::small::no_columns;
use crate::values::{
    odd_diagonals, odd_values, ordinary, ordinary_diagonal, some_factor, some_order, some_zero, sometimes, whole,
    Density,
};
use crate::writer::Writer;
use cases::factor::{Column, Factor};
use cases::random::Random;
use std::io;

/// Stars whose closed sets are below and past ten times the stored entries, zeros among those.
pub fn default_limit(writer: &mut Writer) -> io::Result<()> {
    for n in [1, 2, 30, 36, 37, 38, 39, 40, 41, 42, 50, 64] {
        for zeros in 0..3 {
            let factor = star_with_zeros(&mut writer.random, n, zeros);
            writer.entries(&factor, &[(0, 0)], Limit::Default)?;
            writer.entries(&factor, &diagonal(n), Limit::Default)?;
            let body = Body::new().factor(&factor);
            writer.case("defaultlimit", &body)?;
            let order = some_order(&mut writer.random, n);
            writer.case("diagorig", &body.clone().numbers("perm", &order))?;
            let rows = [vec![(0, 1.0), (n - 1, 2.0)], vec![], vec![(n / 2, 1.0)]];
            writer.case("opvar", &body.operator(n, &rows))?;
        }
    }
    Ok(())
}

/// A first column of whole numbers; each other column has its diagonal and so many zeros below it.
fn star_with_zeros(random: &mut Random, n: usize, zeros: usize) -> Factor {
    let zero = |r: usize| (r, if r % 2 == 0 { 0.0 } else { -0.0 });
    let mut columns: Vec<Column> = (0..n).map(|c| vec![(c, 1.0)]).collect();
    columns[0].extend((1..n).map(|r| (r, whole(random, 3))));
    for (c, column) in columns.iter_mut().enumerate().skip(1) {
        column.extend((c + 1..n.min(c + 1 + zeros)).map(zero));
    }
    Factor::from_columns(&columns)
}

pub fn original_diagonal(writer: &mut Writer) -> io::Result<()> {
    for k in 0..1500 {
        let random = &mut writer.random;
        let n = random.below(if k % 2 == 0 { 8 } else { 41 });
        let below = random.pick(&[0.5, 1.0, 2.0, 8.0]) / n.max(1) as f64;
        let density = Density { below, zeros: 0.05, above: 0.05 };
        let factor = match (k % 3 == 0, k % 5 == 0) {
            (true, _) => some_factor(random, n, density, |random| whole(random, 2), |_| 1.0),
            (false, true) => some_factor(random, n, density, ordinary, |random| {
                sometimes(random, 0.2, &odd_diagonals(), ordinary_diagonal)
            }),
            (false, false) => some_factor(random, n, density, ordinary, ordinary_diagonal),
        };
        let order = some_order(random, n);
        writer.case("diagorig", &Body::new().factor(&factor).numbers("perm", &order))?;
    }
    Ok(())
}

pub fn operator(writer: &mut Writer) -> io::Result<()> {
    for k in 0..3000 {
        let random = &mut writer.random;
        let n = 1 + random.below(if k % 2 == 0 { 6 } else { 32 });
        let below = random.pick(&[0.5, 1.0, 2.0, 5.0]) / n as f64;
        let density = Density { below, zeros: 0.05, above: 0.05 };
        let exact = k % 3 == 0;
        let factor = if exact {
            some_factor(random, n, density, |random| whole(random, 2), |_| 1.0)
        } else {
            some_factor(random, n, density, ordinary, ordinary_diagonal)
        };
        let odd = k % 10 == 7;
        let count = random.below(5);
        let rows: Vec<Column> = (0..count).map(|_| operator_row(random, n, odd, exact)).collect();
        writer.case("opvar", &Body::new().factor(&factor).operator(n, &rows))?;
    }
    for rows in 0..3 {
        let body = Body::new().factor(&no_columns()).operator(0, &vec![Vec::new(); rows]);
        writer.case("opvar", &body)?;
    }
    Ok(())
}

/// At most six terms; a column may be in several of them.
fn operator_row(random: &mut Random, n: usize, odd: bool, exact: bool) -> Column {
    let terms = random.below(n.min(6) + 1);
    (0..terms).map(|_| (random.below(n), weight(random, odd, exact))).collect()
}

fn weight(random: &mut Random, odd: bool, exact: bool) -> f64 {
    if odd && random.chance(0.3) {
        random.pick(&odd_values())
    } else if random.chance(0.1) {
        some_zero(random)
    } else if exact {
        whole(random, 3)
    } else {
        ordinary(random)
    }
}
