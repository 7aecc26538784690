//! What is spoilt in a unit lower factor, its pivots and the requests.

use crate::call::Call;
use crate::faults::Fault;
use crate::random::Random;
use crate::refusals::MOST_COLUMNS;

const NOT_FINITE: [f64; 3] = [f64::NAN, f64::INFINITY, f64::NEG_INFINITY];

/// A dimension past the bound, the lists as they were.
fn large_dimension(call: &mut Call, random: &mut Random) {
    call.factor.n =
        random.pick(&[MOST_COLUMNS + 1, (1_usize << 32).saturating_add(call.factor.n), 1 << 63, usize::MAX]);
}

/// Starts or the number of values broken.
fn broken_starts(call: &mut Call, random: &mut Random) {
    let factor = &mut call.factor;
    match random.below(4) {
        0 => factor.starts.edit(|starts| starts.truncate(starts.len().saturating_sub(1))),
        1 => factor.starts.edit(|starts| starts.push(factor.rows.len() as u32)),
        2 => factor.values.edit(|values| values.truncate(values.len().saturating_sub(1))),
        _ if !factor.starts.is_empty() => {
            let at = random.below(factor.starts.len());
            factor.starts[at] = random.pick(&[1, u32::MAX, factor.rows.len() as u32 + 1]);
        }
        _ => {}
    }
}

/// A row outside, or not above the one before it.
fn broken_rows(call: &mut Call, random: &mut Random) {
    let factor = &mut call.factor;
    if !factor.rows.is_empty() {
        let at = random.below(factor.rows.len());
        factor.rows[at] = random.pick(&[factor.n as u32, u32::MAX, factor.rows[at.saturating_sub(1)]]);
    }
}

/// NaN or an infinity among the stored values, kept or not.
fn not_finite(call: &mut Call, random: &mut Random) {
    let values = &mut call.factor.values;
    if !values.is_empty() {
        let at = random.below(values.len());
        values[at] = random.pick(&NOT_FINITE);
    }
}

/// More or fewer pivots, perhaps none, perhaps more than columns are allowed.
fn pivot_count(call: &mut Call, random: &mut Random) {
    let length = call.pivots.len();
    let other = random.pick(&[0, length.saturating_sub(1), length + 1, length + 1, MOST_COLUMNS + 1]);
    let value = random.pick(&[1.0, 1.0, f64::NAN, 0.0]);
    call.pivots.edit(|pivots| pivots.resize(other, value));
}

fn set_pivot(call: &mut Call, random: &mut Random, values: &[f64]) {
    if !call.pivots.is_empty() {
        let at = random.below(call.pivots.len());
        call.pivots[at] = random.pick(values);
    }
}

fn pivot_not_finite(call: &mut Call, random: &mut Random) {
    set_pivot(call, random, &NOT_FINITE);
}

/// A pivot of 0.0 of either sign, or below it.
fn pivot_not_positive(call: &mut Call, random: &mut Random) {
    set_pivot(call, random, &[0.0, -0.0, -0.0, -1.0, -f64::from_bits(1), f64::MIN]);
}

/// Another dimension of the requests, or lists of unequal length.
fn request_lengths(call: &mut Call, random: &mut Random) {
    let requests = &mut call.requests;
    match random.below(4) {
        0 => {
            let dimension = requests.dimension;
            let others = [0, dimension.saturating_add(1), usize::MAX, dimension.saturating_add(1 << 32)];
            requests.dimension = random.pick(&others);
        }
        1 => requests.rows.edit(|rows| rows.push(0)),
        2 => requests.columns.edit(|columns| columns.push(0)),
        _ => requests.columns.edit(|columns| columns.truncate(columns.len().saturating_sub(1))),
    }
}

/// A request outside.
fn request_outside(call: &mut Call, random: &mut Random) {
    let (n, requests) = (call.factor.n as u32, &mut call.requests);
    let list = if random.chance(50) { &mut requests.rows } else { &mut requests.columns };
    if !list.is_empty() {
        let at = random.below(list.len());
        list[at] = random.pick(&[n, n.saturating_add(1), u32::MAX]);
    }
}

/// A kept diagonal other than 1, in the place of what the column has; where the lists are sound that far.
fn other_diagonal(call: &mut Call, random: &mut Random) {
    let factor = &mut call.factor;
    if factor.starts.len() < 2 {
        return;
    }
    let column = random.below(factor.starts.len() - 1);
    let places = factor.starts[column] as usize..factor.starts[column + 1] as usize;
    if places.start > places.end || places.end > factor.rows.len().min(factor.values.len()) {
        return;
    }
    let above = f64::from_bits(1.0f64.to_bits() + 1);
    let value = random.pick(&[2.0, -1.0, above, 1.0 - f64::EPSILON / 2.0, f64::from_bits(1), f64::MAX]);
    let at = places.clone().find(|&p| factor.rows[p] as usize >= column).unwrap_or(places.end);
    if at < places.end && factor.rows[at] as usize == column {
        factor.values[at] = value;
        return;
    }
    factor.rows.edit(|rows| rows.insert(at, column as u32));
    factor.values.edit(|values| values.insert(at, value));
    factor.starts[column + 1..].iter_mut().for_each(|start| *start = start.saturating_add(1));
}

pub const LDL_FAULTS: [Fault; 10] = [
    large_dimension,
    broken_starts,
    broken_rows,
    not_finite,
    pivot_count,
    pivot_not_finite,
    request_lengths,
    request_outside,
    other_diagonal,
    pivot_not_positive,
];
/// Those that the call does not share with selected entries of our own family.
pub const PIVOT_FAULTS: [Fault; 4] = [pivot_count, pivot_not_finite, other_diagonal, pivot_not_positive];
