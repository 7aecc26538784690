//! Unit lower factors with pivots, and our own family's factors of the same matrices.

use crate::grid::grid;
use crate::list::List;
use crate::random::Random;
use crate::rules::Factor;
use crate::subjects::FactorLists;
use crate::whole_factors::lists;

/// The rows and values of each column, ascending.
pub type Columns = Vec<Vec<(usize, f64)>>;

/// How a diagonal of 1 is given.
#[derive(Clone, Copy, Debug, PartialEq, Eq)]
pub enum Diagonal {
    Stored,
    /// Not stored at all.
    Implied,
    /// Stored as 0.0 of either sign, which is dropped.
    Dropped,
}

pub const DIAGONALS: [Diagonal; 3] = [Diagonal::Stored, Diagonal::Implied, Diagonal::Dropped];

/// Gives each column its diagonal, in the place of any that it has.
pub fn put_diagonals(columns: &mut Columns, random: &mut Random, given: impl Fn(&mut Random) -> Diagonal) {
    for (c, column) in columns.iter_mut().enumerate() {
        column.retain(|e| e.0 != c);
        let value = match given(random) {
            Diagonal::Stored => 1.0,
            Diagonal::Implied => continue,
            Diagonal::Dropped => random.pick(&[0.0, -0.0]),
        };
        column.insert(column.partition_point(|e| e.0 < c), (c, value));
    }
}

/// In one way for all columns, or in one for each.
pub fn put_some_diagonals(columns: &mut Columns, random: &mut Random) {
    let all = random.pick(&[Some(Diagonal::Stored), Some(Diagonal::Implied), Some(Diagonal::Dropped), None, None]);
    put_diagonals(columns, random, |random| all.unwrap_or_else(|| random.pick(&DIAGONALS)));
}

/// The columns of a sound factor.
pub fn columns_of(factor: &FactorLists) -> Columns {
    let places = factor.starts.windows(2).map(|s| s[0] as usize..s[1] as usize);
    places.map(|places| places.map(|p| (factor.rows[p] as usize, factor.values[p])).collect()).collect()
}

/// A pivot above 0.0: about 1, of some size, or any, the least and the greatest floats among them.
pub fn any_pivot(random: &mut Random) -> f64 {
    let exponent = random.below(2098) as i32 - 1074;
    match random.below(12) {
        0..=3 => 0.1 + 3.0 * random.unit(),
        4 | 5 => 1.0,
        // in two steps, since the least power of 2 has no inverse
        6 | 7 => 2f64.powi(exponent / 2) * 2f64.powi(exponent - exponent / 2),
        8 => {
            random.pick(&[f64::from_bits(1), f64::from_bits(2), f64::MIN_POSITIVE, f64::MAX, 1.0 - f64::EPSILON / 2.0])
        }
        _ => loop {
            let pivot = random.any_value().abs();
            if pivot > 0.0 && pivot.is_finite() {
                return pivot;
            }
        },
    }
}

/// From 2^-most to 2^most.
pub fn moderate_pivot(random: &mut Random, most: i32) -> f64 {
    let exponent = random.whole(most.into()) as i32;
    2f64.powi(exponent) * (1.0 + random.unit())
}

/// The unit lower factor and the pivots of a grid's matrix, and the place of each cell: from its Cholesky factor, each column
/// divided by its diagonal, which is squared.
pub fn grid_with_pivots(side: usize, nested: bool, given: Diagonal) -> (FactorLists, List<f64>, Vec<u32>) {
    let grid = grid(side, nested);
    let (mut columns, mut pivots) = (Columns::new(), Vec::new());
    for places in grid.starts.windows(2).map(|s| s[0] as usize..s[1] as usize) {
        let diagonal = grid.values[places.start];
        pivots.push(diagonal * diagonal);
        columns.push(places.map(|p| (grid.rows[p] as usize, grid.values[p] / diagonal)).collect());
    }
    put_diagonals(&mut columns, &mut Random::new(0), |_| given);
    (lists(&columns), List::new(&pivots), grid.orig_to_perm)
}

/// Our own family's factor of the same matrix, L·sqrt(D): each root and each product rounded once. None where a root's
/// square, its inverse or a product is not a normal float.
pub fn with_roots(factor: &Factor, pivots: &[f64]) -> Option<FactorLists> {
    let squares = [2f64.powi(-1000), 2f64.powi(1000)];
    let mut columns = Columns::new();
    for (j, below) in factor.below.iter().enumerate() {
        let root = pivots[j].sqrt();
        columns.push(vec![(j, root)]);
        columns[j].extend(below.iter().map(|&(k, l)| (k, l * root)));
        if pivots[j] < squares[0] || pivots[j] > squares[1] || columns[j].iter().any(|e| !e.1.is_normal()) {
            return None;
        }
    }
    Some(lists(&columns))
}

/// The same factor with its diagonals stored, all 1.
pub fn with_units(factor: &Factor) -> FactorLists {
    let columns: Columns = (0..)
        .zip(&factor.below)
        .map(|(j, below)| std::iter::once((j, 1.0)).chain(below.iter().copied()).collect())
        .collect();
    lists(&columns)
}
