//! Factors of grids of depth cells: cell x, y of a grid of the given width is number y · width + x.

use crate::factor::{cholesky, Column, Factor};
use crate::random::Random;
use std::ops::Range;

/// The largest number of cells that nested dissection leaves in their own order.
const LEAST_DISSECTED: usize = 9;

/// Puts a part of the grid behind what `order` has: the cells on either side of its middle line, then the line.
fn dissect(xs: Range<usize>, ys: Range<usize>, width: usize, order: &mut Vec<usize>) {
    if xs.len() * ys.len() <= LEAST_DISSECTED {
        order.extend(ys.flat_map(|y| xs.clone().map(move |x| y * width + x)));
    } else if xs.len() >= ys.len() {
        let middle = xs.start + xs.len() / 2;
        dissect(xs.start..middle, ys.clone(), width, order);
        dissect(middle + 1..xs.end, ys.clone(), width, order);
        order.extend(ys.map(|y| y * width + middle));
    } else {
        let middle = ys.start + ys.len() / 2;
        dissect(xs.clone(), ys.start..middle, width, order);
        dissect(xs.clone(), middle + 1..ys.end, width, order);
        order.extend(xs.map(|x| middle * width + x));
    }
}

#[derive(Clone, Copy)]
pub enum Order {
    /// by number
    Natural,
    /// by nested dissection
    Nested,
}

impl Order {
    /// Where each cell stands.
    fn orig_to_perm(self, width: usize, height: usize) -> Vec<usize> {
        let mut perm_to_orig = Vec::new();
        match self {
            Order::Natural => perm_to_orig.extend(0..width * height),
            Order::Nested => dissect(0..width, 0..height, width, &mut perm_to_orig),
        }
        let mut orig_to_perm = vec![0; perm_to_orig.len()];
        for (permuted, original) in perm_to_orig.into_iter().enumerate() {
            orig_to_perm[original] = permuted;
        }
        orig_to_perm
    }
}

pub struct Grid {
    pub factor: Factor,
    pub orig_to_perm: Vec<usize>,
}

/// The Cholesky factor of a grid whose neighbours are coupled, each cell with something added to its diagonal: 1 and
/// 0.25, or random numbers where they are given.
pub fn grid(width: usize, height: usize, order: Order, mut random: Option<&mut Random>) -> Grid {
    let n = width * height;
    let orig_to_perm = order.orig_to_perm(width, height);
    let mut diagonal = vec![0.0; n];
    let mut lower: Vec<Column> = vec![Vec::new(); n];
    for (x, y) in (0..height).flat_map(|y| (0..width).map(move |x| (x, y))) {
        let here = orig_to_perm[y * width + x];
        diagonal[here] += random.as_deref_mut().map_or(0.25, |random| 0.05 + random.unit());
        for (next_x, next_y) in [(x + 1, y), (x, y + 1)] {
            if next_x < width && next_y < height {
                let there = orig_to_perm[next_y * width + next_x];
                let coupling = random.as_deref_mut().map_or(1.0, |random| 0.5 + random.unit());
                diagonal[here] += coupling;
                diagonal[there] += coupling;
                lower[here.min(there)].push((here.max(there), -coupling));
            }
        }
    }
    for (c, column) in lower.iter_mut().enumerate() {
        column.push((c, diagonal[c]));
        column.sort_by_key(|entry| entry.0);
    }
    Grid { factor: cholesky(&lower), orig_to_perm }
}
