//! Document 01's worked cases, and all factors of a few columns.

use crate::body::{Body, Pair};
use crate::limits::{all_limits, closed_size, jumbled, members, some_limit, triangle, Limit, MOST};
use crate::values::{odd_diagonals, odd_values, ordinary, ordinary_diagonal, whole};
use crate::writer::Writer;
use cases::factor::{Column, Factor};
use cases::random::Random;
use std::io;

pub fn no_columns() -> Factor {
    Factor::from_columns(&[])
}

/// A factor of one column with only this value.
fn one(value: f64) -> Factor {
    Factor::from_columns(&[vec![(0, value)]])
}

/// Document 01's F2, with another value below its first diagonal.
pub fn f2_with(value: f64) -> Factor {
    Factor::from_columns(&[vec![(0, 1.0), (1, value)], vec![(1, 1.0)]])
}

pub fn f2() -> Factor {
    f2_with(2.0)
}

pub fn f3() -> Factor {
    Factor::from_columns(&[vec![(0, 1.0), (1, 2.0), (2, 3.0)], vec![(1, 1.0)], vec![(2, 1.0)]])
}

/// A factor with the given diagonal and nothing else.
pub fn diagonal_factor(n: usize, value: f64) -> Factor {
    Factor::from_columns(&(0..n).map(|i| vec![(i, value)]).collect::<Vec<_>>())
}

pub fn worked(writer: &mut Writer) -> io::Result<()> {
    worked_f2(writer)?;
    worked_f3(writer)?;
    worked_columns(writer)?;
    let body = Body::new().factor(&f2()).operator(2, &[vec![(0, 1.0), (1, 1.0)]]);
    let expected = ["reply ok", "status Complete", "out 1 4000000000000000", "finish same"];
    writer.named("opvar", "F2-operator-1-1", &body.expect(&expected))?;
    let body = Body::new().numbers("perm", &[2, 0, 1]);
    writer.named("permfrom", "perm-2-0-1", &body.expect(&["reply ok", "inv 3 1 2 0"]))?;
    let body = Body::new().numbers("perm", &[0, 0, 9]);
    let expected = ["reply err DimensionMismatch permutation-contains-duplicate-entries"];
    writer.named("permfrom", "perm-0-0-9", &body.expect(&expected))?;
    let body = Body::new().field("floor", "mean").field("scale", "3fe0000000000000").values("input", &[4.0, -2.0, 0.0]);
    let expected = ["floor 4000000000000000", "hits 2", "out 3 4010000000000000 4000000000000000 4000000000000000"];
    writer.named("floor", "floor-4-m2-0-half", &body.expect(&expected))?;
    // Refused with 1; the Rust answers.
    writer.named_entries("n4097", &diagonal_factor(4097, 1.0), &[(0, 0)], Limit::At(3), &["reply ok"])
}

fn worked_f2(writer: &mut Writer) -> io::Result<()> {
    let (f2, limit) = (f2(), Limit::At(3));
    let expected = [
        "reply ok",
        "status Complete",
        "requested 1",
        "closure 3",
        "factor 3",
        "limit 3",
        "ratio 3ff0000000000000",
        "starts 3 0 2 3",
        "rows 3 0 1 1",
        "values 3 4014000000000000 c000000000000000 3ff0000000000000",
        "route factor",
    ];
    writer.named_entries("F2-00-limit3", &f2, &[(0, 0)], limit, &expected)?;
    let expected = ["status ClosureTooLarge", "closure 3"];
    writer.named_entries("F2-00-limit2", &f2, &[(0, 0)], Limit::At(2), &expected)?;
    let expected = ["status Complete", "closure 2", "starts 3 0 1 2", "rows 2 1 1"];
    writer.named_entries("F2-10-limit3", &f2, &[(1, 0)], limit, &expected)?;
    let gets = "gets 9 none none none none 3ff0000000000000 none none none none";
    writer.named_entries("F2-11-limit3", &f2, &[(1, 1)], limit, &["status Complete", "closure 1", gets])?;
    let expected = ["status Complete", "requested 1"];
    writer.named_entries("F2-01-10-limit3", &f2, &[(0, 1), (1, 0)], limit, &expected)?;
    let expected = ["status Complete", "requested 0", "closure 0", "starts 3 0 0 0", "rows 0"];
    writer.named_entries("F2-none-limit0", &f2, &[], Limit::At(0), &expected)?;
    let expected = ["status Complete", "closure 0", "factor 0", "ratio 0000000000000000", "starts 1 0"];
    writer.named_entries("n0-none", &no_columns(), &[], limit, &expected)?;
    let expected = ["status Complete", "limit 0", "ratio 0000000000000000"];
    writer.named_entries("n0-none-default", &no_columns(), &[], Limit::Default, &expected)
}

fn worked_f3(writer: &mut Writer) -> io::Result<()> {
    let values = "values 6 402c000000000000 c000000000000000 c008000000000000 \
                  3ff0000000000000 8000000000000000 3ff0000000000000";
    let expected = [
        "status Complete",
        "requested 1",
        "closure 6",
        "factor 5",
        "limit 6",
        "route closure",
        "starts 4 0 3 5 6",
        "rows 6 0 1 2 1 2 2",
        values,
    ];
    writer.named_entries("F3-00-limit6", &f3(), &[(0, 0)], Limit::At(6), &expected)?;
    let expected = ["status ClosureTooLarge", "closure 6", "factor 5"];
    writer.named_entries("F3-00-limit5", &f3(), &[(0, 0)], Limit::At(5), &expected)
}

fn worked_columns(writer: &mut Writer) -> io::Result<()> {
    let refused = ["reply err NonPositiveDefinite"];
    for (name, value, expected) in [
        ("n1-only-zero", 0.0, &refused[..]),
        ("n1-only-minus-zero", -0.0, &refused),
        ("n1-diag-2", 2.0, &["status Complete", "values 1 3fd0000000000000"]),
        ("n1-diag-nan", f64::NAN, &["status Complete", "values 1 nan"]),
    ] {
        writer.named_entries(name, &one(value), &[(0, 0)], Limit::At(3), expected)?;
    }
    Ok(())
}

pub fn tiny(writer: &mut Writer) -> io::Result<()> {
    for limit in [Limit::At(0), Limit::At(1), Limit::At(MOST), Limit::Default] {
        writer.entries(&no_columns(), &[], limit)?;
    }
    one_column(writer)?;
    for n in [2, 3] {
        zeros_and_values(writer, n)?;
    }
    four_columns(writer)?;
    faulty_diagonals(writer)
}

/// One column with each odd value, without one, and with each zero.
fn one_column(writer: &mut Writer) -> io::Result<()> {
    let odd = odd_values().into_iter().chain(odd_diagonals()).map(one);
    let factors = odd.chain([Factor::from_columns(&[vec![]]), one(0.0), one(-0.0)]);
    for factor in factors {
        for requests in [&[][..], &[(0, 0)], &[(0, 0), (0, 0)]] {
            for limit in all_limits(requests.len().min(1)) {
                writer.entries(&factor, requests, limit)?;
            }
        }
    }
    Ok(())
}

/// The pairs below the diagonal.
fn strict_triangle(n: usize) -> Vec<Pair> {
    triangle(n).into_iter().filter(|pair| pair.0 > pair.1).collect()
}

fn some_value(random: &mut Random, exact: bool, most: i64) -> f64 {
    if exact {
        whole(random, most)
    } else {
        ordinary(random)
    }
}

fn some_diagonal(random: &mut Random, exact: bool) -> f64 {
    if exact {
        1.0
    } else {
        ordinary_diagonal(random)
    }
}

/// Every lower pattern of absent, kept, 0.0 and -0.0, with every set of requests.
fn zeros_and_values(writer: &mut Writer, n: usize) -> io::Result<()> {
    let (pairs, below) = (triangle(n), strict_triangle(n));
    for code in 0..4usize.pow(below.len() as u32) {
        let factor = coded_factor(&mut writer.random, n, &below, code);
        for set in 0..1usize << pairs.len() {
            let requests = members(&pairs, set);
            let size = closed_size(&factor, &requests);
            let requests = jumbled(&mut writer.random, &requests);
            let limits = match n {
                2 => all_limits(size),
                _ => vec![Limit::At(size), some_limit(&mut writer.random, size)],
            };
            for limit in limits {
                writer.entries(&factor, &requests, limit)?;
            }
        }
    }
    Ok(())
}

/// The factor whose pattern below the diagonal is the code's digits to base 4, and which is random above it.
fn coded_factor(random: &mut Random, n: usize, below: &[Pair], code: usize) -> Factor {
    let exact = code % 2 == 0;
    let mut columns: Vec<Column> = vec![Vec::new(); n];
    for (c, column) in columns.iter_mut().enumerate() {
        for r in 0..c {
            if random.chance(0.3) {
                column.push((r, whole(random, 5)));
            }
        }
        column.push((c, some_diagonal(random, exact)));
        for (digit, pair) in below.iter().enumerate().filter(|(_, pair)| pair.1 == c) {
            match code / 4usize.pow(digit as u32) % 4 {
                0 => {}
                1 => column.push((pair.0, some_value(random, exact, 9))),
                2 => column.push((pair.0, 0.0)),
                _ => column.push((pair.0, -0.0)),
            }
        }
    }
    Factor::from_columns(&columns)
}

/// Every kept lower pattern of four columns, with every set of requests.
fn four_columns(writer: &mut Writer) -> io::Result<()> {
    let (pairs, below) = (triangle(4), strict_triangle(4));
    for code in 0..1usize << below.len() {
        for set in 0..1usize << pairs.len() {
            let exact = set % 2 == 0;
            let kept = members(&below, code);
            let mut columns: Vec<Column> = vec![Vec::new(); 4];
            for (c, column) in columns.iter_mut().enumerate() {
                column.push((c, some_diagonal(&mut writer.random, exact)));
                for pair in kept.iter().filter(|pair| pair.1 == c) {
                    column.push((pair.0, some_value(&mut writer.random, exact, 4)));
                }
            }
            let factor = Factor::from_columns(&columns);
            let requests = members(&pairs, set);
            let limit = some_limit(&mut writer.random, closed_size(&factor, &requests));
            writer.entries(&factor, &requests, limit)?;
        }
    }
    Ok(())
}

/// A column's diagonal missing, zero, negative, NaN, or the least positive value.
fn faulty_diagonals(writer: &mut Writer) -> io::Result<()> {
    let diagonals = [0.0, -0.0, -1.0, f64::NEG_INFINITY, -5e-324, f64::NAN, 5e-324];
    for n in 1..=4 {
        for c in 0..n {
            for diagonal in [None].into_iter().chain(diagonals.map(Some)) {
                let entry = |j: usize, r: usize| (r, if r == j { 1.0 } else { 0.5 });
                let mut columns: Vec<Column> = (0..n).map(|j| (j..n).map(|r| entry(j, r)).collect()).collect();
                match diagonal {
                    None => drop(columns[c].remove(0)),
                    Some(value) => columns[c][0].1 = value,
                }
                let factor = Factor::from_columns(&columns);
                writer.entries(&factor, &[], Limit::At(0))?;
                writer.entries(&factor, &[(n - 1, n - 1)], Limit::Default)?;
                writer.entries(&factor, &[(0, 0)], Limit::At(0))?;
            }
        }
    }
    Ok(())
}
