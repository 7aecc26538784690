//! Patterns, permutations, floors, least values, and lookups in result lists.

use crate::body::{Body, Pair};
use crate::limits::MOST;
use crate::values::{odd_values, ordinary, some_factor, some_order, sometimes, Density};
use crate::writer::Writer;
use cases::factor::{Column, Factor};
use cases::random::Random;
use cases::text::digits;
use std::io;

/// Factors and operators of odd values, some factors with a column that has no diagonal.
pub fn patterns(writer: &mut Writer) -> io::Result<()> {
    for k in 0..800 {
        let random = &mut writer.random;
        let n = random.below(if k % 2 == 0 { 6 } else { 40 });
        let density = Density { below: random.pick(&[0.05, 0.3, 0.9]), zeros: 0.2, above: 0.2 };
        let diagonal = |random: &mut Random| random.pick(&[1.0, 0.0, -0.0, -1.0, f64::NAN]);
        let mut factor = some_factor(random, n, density, |random| random.pick(&odd_values()), diagonal);
        if n > 0 && random.chance(0.2) {
            factor = without_diagonal(&factor, random.below(n));
        }
        writer.case("patfactor", &Body::new().factor(&factor))?;
        let random = &mut writer.random;
        let count = random.below(6);
        let rows: Vec<Column> = (0..count).map(|_| odd_row(random, n)).collect();
        writer.case("patoperator", &Body::new().operator(n, &rows))?;
    }
    Ok(())
}

fn without_diagonal(factor: &Factor, c: usize) -> Factor {
    let column = |j: usize| factor.column(j).filter(|entry| j != c || entry.0 != c).collect();
    Factor::from_columns(&(0..factor.n).map(column).collect::<Vec<_>>())
}

fn odd_row(random: &mut Random, n: usize) -> Column {
    let terms = if n == 0 { 0 } else { random.below(5) };
    (0..terms).map(|_| (random.below(n), random.pick(&odd_values()))).collect()
}

/// The digits of a number to the given base, the lowest first.
fn coded(number: usize, base: usize, count: usize) -> Vec<usize> {
    (0..count).map(|k| number / base.pow(k as u32) % base).collect()
}

pub fn permutations(writer: &mut Writer) -> io::Result<()> {
    // Every list of at most four indices from 0 to 4.
    for n in 0..=4 {
        for code in 0..5usize.pow(n as u32) {
            let body = Body::new().numbers("perm", &coded(code, 5, n));
            writer.case("permfrom", &body)?;
            let input: Vec<f64> = (0..n).map(|k| k as f64 + 0.5).collect();
            writer.case("permapply", &body.values("input", &input))?;
        }
    }
    // Every two lists of the same length of at most three indices from 0 to 3, then lists of two lengths.
    for n in 0..=3 {
        for code in 0..4usize.pow(2 * n as u32) {
            let both = coded(code, 4, 2 * n);
            writer.case("permvalidate", &Body::new().numbers("perm", &both[..n]).numbers("inv", &both[n..]))?;
        }
        let natural = |n: usize| (0..n).collect::<Vec<_>>();
        for other in (0..=4).filter(|other| *other != n) {
            let body = Body::new().numbers("perm", &natural(n)).numbers("inv", &natural(other));
            writer.case("permvalidate", &body)?;
        }
    }
    for k in 0..200 {
        let n = writer.random.pick(&[5, 10, 64, 500, 2049, 4095, 4096, 4097]);
        if n <= 500 || k <= 40 {
            some_permutation(writer, n)?;
        }
    }
    Ok(())
}

/// A permutation and its inverse, in three cases of five with a fault in one of them or in the input's length.
fn some_permutation(writer: &mut Writer, n: usize) -> io::Result<()> {
    let random = &mut writer.random;
    let mut perm = some_order(random, n);
    let mut inverse = vec![0; n];
    for (i, x) in perm.iter().enumerate() {
        inverse[*x] = i;
    }
    let fault = random.below(5);
    let place = random.below(n);
    match fault {
        1 => perm[place] = n + random.below(3),
        2 => perm[place] = perm[random.below(n)],
        3 => inverse[place] = random.below(n + 2),
        _ => {}
    }
    let length = if fault == 4 { n - 1 } else { n };
    let body = Body::new().numbers("perm", &perm);
    writer.case("permfrom", &body)?;
    writer.case("permvalidate", &body.clone().numbers("inv", &inverse))?;
    let random = &mut writer.random;
    let input: Vec<f64> = (0..length).map(|_| sometimes(random, 0.1, &odd_values(), ordinary)).collect();
    writer.case("permapply", &body.values("input", &input))
}

pub fn floors(writer: &mut Writer) -> io::Result<()> {
    let finite = odd_values().into_iter().filter(|value| value.is_finite());
    let odd: Vec<f64> = finite.chain([0.0, -0.0, 0.5, 2.0, 4.0, -2.0]).collect();
    for k in 0..4000 {
        let random = &mut writer.random;
        let n = random.below(if k % 8 == 0 { 3 } else { 20 });
        let mut input: Vec<f64> = (0..n)
            .map(|_| match k % 3 {
                0 => random.pick(&odd),
                1 => ordinary(random),
                _ => sometimes(random, 0.2, &odd, |random| ordinary(random) * 10.0),
            })
            .collect();
        if n > 0 && k % 11 == 0 {
            let place = random.below(n);
            input[place] = random.pick(&[f64::NAN, f64::INFINITY, f64::NEG_INFINITY]);
        }
        let body = if k % 4 == 0 { Body::new().field("floor", "zero") } else { mean_floor(some_scale(random)) };
        writer.case("floor", &body.values("input", &input))?;
    }
    // The mean overflows; with scale 0 the floor is NaN.
    for scale in [0.0, -0.0, 1.0] {
        writer.case("floor", &mean_floor(scale).values("input", &[f64::MAX, f64::MAX, 1.0, -1.0]))?;
    }
    Ok(())
}

#[rustfmt::skip]
fn some_scale(random: &mut Random) -> f64 {
    random.pick(&[
        0.0, -0.0, 0.5, 1.0, 2.0, 1e-3, 1e300, 5e-324, f64::MAX,
        -1.0, -5e-324, f64::INFINITY, f64::NEG_INFINITY, f64::NAN,
    ])
}

fn mean_floor(scale: f64) -> Body {
    Body::new().field("floor", "mean").field("scale", digits(scale))
}

pub fn least_values(writer: &mut Writer) -> io::Result<()> {
    let odd: Vec<f64> = odd_values().into_iter().chain([0.0, -0.0, 0.0, -0.0]).collect();
    for k in 0..4000 {
        let random = &mut writer.random;
        let n = random.below(if k % 8 == 0 { 3 } else { 40 });
        let input: Vec<f64> = (0..n)
            .map(|_| match k % 4 {
                0 => random.pick(&odd),
                1 => random.pick(&[0.0, -0.0, 1.0, f64::NAN]),
                2 => f64::NAN,
                _ => ordinary(random),
            })
            .collect();
        writer.case("least", &Body::new().values("input", &input))?;
    }
    Ok(())
}

struct ResultLists {
    starts: Vec<usize>,
    rows: Vec<usize>,
    values: Vec<f64>,
}

pub fn lookups(writer: &mut Writer) -> io::Result<()> {
    for k in 0..2000 {
        let random = &mut writer.random;
        let n = random.below(if k % 2 == 0 { 5 } else { 30 });
        let mut lists = some_result(random, n);
        let spoilt = [3, 5, 7, 9, 11].contains(&(k % 12));
        spoil(random, &mut lists, k);
        let body =
            Body::new().numbers("starts", &lists.starts).numbers("rows", &lists.rows).values("values", &lists.values);
        writer.case("diag", &body)?;
        let random = &mut writer.random;
        let mut pairs: Vec<Pair> =
            (0..if spoilt { 1 } else { 10 }).map(|_| (random.below(n + 2), random.below(n + 2))).collect();
        if !spoilt {
            pairs.extend([(0, MOST), (MOST, MOST)]);
        }
        writer.case("get", &body.lookups(&pairs))?;
    }
    Ok(())
}

/// Sound lists, in three cases of ten with some places past those filled.
fn some_result(random: &mut Random, n: usize) -> ResultLists {
    let density = random.pick(&[0.1, 0.5, 0.9]);
    let (mut starts, mut rows) = (vec![0], Vec::new());
    for c in 0..n {
        rows.extend((c..n).filter(|_| random.chance(density)));
        starts.push(rows.len());
    }
    let mut values: Vec<f64> = rows.iter().map(|_| sometimes(random, 0.1, &odd_values(), ordinary)).collect();
    if random.chance(0.3) {
        for _ in 0..random.below(4) {
            rows.push(random.below(5));
        }
        values.resize(values.len() + random.below(4), 1.0);
    }
    ResultLists { starts, rows, values }
}

/// By the case's number: a falling start, a start past the lists, a row twice, rows out of order, no starts.
fn spoil(random: &mut Random, lists: &mut ResultLists, k: usize) {
    let ResultLists { starts, rows, .. } = lists;
    match k % 12 {
        3 if starts.len() > 2 => {
            let place = 1 + random.below(starts.len() - 2);
            starts[place] += 1 + random.below(3);
        }
        5 if starts.len() > 1 => {
            let last = starts.len() - 1;
            starts[last] += 1 + random.below(6);
        }
        7 if rows.len() > 1 => {
            let place = 1 + random.below(rows.len() - 1);
            rows[place] = rows[place - 1];
        }
        9 if rows.len() > 1 => {
            let place = 1 + random.below(rows.len() - 1);
            rows.swap(place, place - 1);
        }
        11 if k % 5 == 0 => starts.clear(),
        _ => {}
    }
}
