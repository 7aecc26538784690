//! Calls that document 01 refuses, most of them with one or two faults.

use crate::body::{Body, Pair};
use crate::limits::some_requests;
use crate::small::{diagonal_factor, f2};
use crate::values::{ordinary, ordinary_diagonal, some_factor, some_order, Density};
use crate::writer::Writer;
use cases::factor::{Column, Factor};
use cases::random::Random;
use std::io;

pub fn refused(writer: &mut Writer) -> io::Result<()> {
    for k in 0..2400 {
        let n = 1 + writer.random.below(6);
        let mut call = sound(&mut writer.random, n);
        for _ in 0..1 + writer.random.below(2) {
            spoil(&mut writer.random, &mut call, n);
        }
        let body = Body::new().factor(&call.factor);
        let limit = if k % 2 == 0 { "default" } else { "1000" };
        writer.case("entries", &call.requests_body(body.clone()).field("limit", limit))?;
        if k % 4 == 0 {
            writer.case("patfactor", &body)?;
            let perm = some_permutation(&mut writer.random, n);
            writer.case("diagorig", &body.numbers("perm", &perm))?;
        }
        if k % 4 == 1 {
            operator_calls(writer, &call.factor, n)?;
        }
    }
    sizes(writer)
}

fn plain_factor(random: &mut Random, n: usize) -> Factor {
    some_factor(random, n, Density { below: 0.6, zeros: 0.1, above: 0.1 }, ordinary, ordinary_diagonal)
}

struct SelectedCall {
    factor: Factor,
    dimension: usize,
    requests: Vec<Pair>,
    /// the last request has no column
    cut: bool,
}

impl SelectedCall {
    fn requests_body(&self, body: Body) -> Body {
        let (rows, mut columns): (Vec<usize>, Vec<usize>) = self.requests.iter().copied().unzip();
        if self.cut {
            columns.pop();
        }
        body.field("rdim", self.dimension).numbers("rrows", &rows).numbers("rcols", &columns)
    }
}

fn sound(random: &mut Random, n: usize) -> SelectedCall {
    let factor = plain_factor(random, n);
    let requests = some_requests(random, n);
    SelectedCall { factor, dimension: n, requests, cut: false }
}

/// Puts one fault into the factor's starts, its rows or values, or the requests; none where the lists are too short.
fn spoil(random: &mut Random, call: &mut SelectedCall, n: usize) {
    let Factor { starts, rows, values, .. } = &mut call.factor;
    match random.below(13) {
        0 => drop(starts.pop()),
        1 => starts.push(starts.last().copied().unwrap_or(0)),
        2 if !starts.is_empty() => starts[0] = 1,
        3 if starts.len() > 2 => {
            let place = 1 + random.below(starts.len() - 1);
            starts[place] = random.below(rows.len() + 3);
        }
        4 => drop(rows.pop()),
        5 => drop(values.pop()),
        6 => values.push(1.0),
        7 if !rows.is_empty() => {
            let place = random.below(rows.len());
            rows[place] = n + random.below(3);
        }
        8 if rows.len() > 1 => {
            let place = 1 + random.below(rows.len() - 1);
            rows.swap(place, place - 1);
        }
        9 if rows.len() > 1 => {
            let place = 1 + random.below(rows.len() - 1);
            rows[place] = rows[place - 1];
        }
        10 => call.dimension = if random.chance(0.5) { n + 1 } else { n - 1 },
        11 => call.requests.push((n + random.below(2), random.below(n))),
        12 => call.cut = true,
        _ => {}
    }
}

/// A permutation with an index too large, one twice, one too many, or no fault.
fn some_permutation(random: &mut Random, n: usize) -> Vec<usize> {
    let mut perm = some_order(random, n);
    match random.below(4) {
        0 => perm[0] = n,
        1 => perm[0] = perm[n - 1],
        2 => perm.push(n),
        _ => {}
    }
    perm
}

/// A sound factor or the given one, with an operator that may have a fault.
fn operator_calls(writer: &mut Writer, spoilt: &Factor, n: usize) -> io::Result<()> {
    let random = &mut writer.random;
    let factor = if random.chance(0.5) { plain_factor(random, n) } else { spoilt.clone() };
    let count = 1 + random.below(3);
    let mut rows: Vec<Column> = Vec::new();
    for _ in 0..count {
        let terms = random.below(4);
        rows.push((0..terms).map(|_| (random.below(n), ordinary(random))).collect());
    }
    let mut columns = n;
    match random.below(4) {
        0 => columns = n + 1,
        1 => rows[0].push((n + random.below(2), 1.0)),
        2 => rows[0].push((0, f64::NAN)),
        _ => {}
    }
    let mut terms = Factor::from_columns(&rows);
    if random.chance(0.2) {
        terms.starts.clear();
    }
    writer.case("opvar", &Body::new().factor(&factor).operator_terms(columns, &terms))?;
    writer.case("patoperator", &Body::new().operator_terms(columns, &terms))
}

/// Dimensions at the largest, and past it.
fn sizes(writer: &mut Writer) -> io::Result<()> {
    for n in [4096, 4097, 5000] {
        let body = Body::new().factor(&diagonal_factor(n, 1.0));
        writer.case("entries", &body.clone().requests(n, &[(0, 0)]).field("limit", "default"))?;
        let reversed: Vec<usize> = (0..n).rev().collect();
        writer.case("diagorig", &body.numbers("perm", &reversed))?;
        writer.case("opvar", &Body::new().factor(&f2()).operator(2, &vec![vec![(0, 1.0)]; n]))?;
        writer.case("patoperator", &Body::new().operator(n, &[vec![(0, 1.0)]]))?;
    }
    Ok(())
}
