//! Factors of whole numbers with diagonals of 1.

use crate::grid::grid;
use crate::list::{Item, List};
use crate::random::Random;
use crate::subjects::FactorLists;

/// The rows and values of each column, ascending.
pub type Columns = Vec<Vec<(usize, i64)>>;

/// n columns with nothing but their diagonals.
pub fn unit(n: usize) -> Columns {
    (0..n).map(|c| vec![(c, 1)]).collect()
}

pub fn lists<V: Item>(columns: &[Vec<(usize, V)>]) -> FactorLists<V> {
    let entries: Vec<(usize, V)> = columns.iter().flatten().copied().collect();
    let mut starts = vec![0];
    for column in columns {
        starts.push(starts[starts.len() - 1] + column.len() as u32);
    }
    FactorLists {
        n: columns.len(),
        starts: List::new(&starts),
        rows: List::made(entries.len(), |p| entries[p].0 as u32),
        values: List::made(entries.len(), |p| entries[p].1),
    }
}

/// The same factor as floats. A number past 2^53 is rounded, and stays other than 0.
pub fn as_floats(factor: &FactorLists<i64>) -> FactorLists {
    FactorLists {
        n: factor.n,
        starts: factor.starts.clone(),
        rows: factor.rows.clone(),
        values: List::made(factor.values.len(), |p| factor.values[p] as f64),
    }
}

/// The same factor in whole numbers, where its values are such and fit.
pub fn as_wholes(factor: &FactorLists) -> Option<FactorLists<i64>> {
    let end = 2f64.powi(63);
    factor.values.iter().all(|&x| x.trunc() == x && -end <= x && x < end).then(|| FactorLists {
        n: factor.n,
        starts: factor.starts.clone(),
        rows: factor.rows.clone(),
        values: List::made(factor.values.len(), |p| factor.values[p] as i64),
    })
}

/// 1 and -1 at the pattern of a grid's Cholesky factor: entry (i,j) is s(i)·s(j), with a sign s for each cell. Any two rows of
/// a column are a pair of the pattern. So when L·x = e(j) is solved from the top, what is left to be solved for is, but for
/// the signs, all 1 or all -1 at some rows of one column; the inverse of L has the entries -1, 0 and 1 alone, no entry of the
/// selected inverse passes n in size, and no sum n². The second list has the place of each cell.
pub fn grid_of_signs(side: usize, nested: bool, random: &mut Random) -> (FactorLists<i64>, Vec<u32>) {
    let grid = grid(side, nested);
    let signs: Vec<i64> = (0..side * side).map(|_| random.pick(&[1, -1])).collect();
    let mut columns = unit(side * side);
    for (j, column) in columns.iter_mut().enumerate() {
        let below = &grid.rows[grid.starts[j] as usize + 1..grid.starts[j + 1] as usize];
        column.extend(below.iter().map(|&i| (i as usize, signs[i as usize] * signs[j])));
    }
    (lists(&columns), grid.orig_to_perm)
}

/// A full lower triangle: entry (i,j) is u(i)·v(j) with u(k)·v(k) = 2, both of size 1 or 2; the last row is `scale` times that.
/// Entry (i,j) of the inverse of L is then u(i)·v(j) in size, in the last row `scale` times that: no entry of the selected
/// inverse passes 16·(n + scale²) in size, no sum 64·(n + scale²)·n. All are other than 0, and with a scale of 2^14 most of
/// them are past 2^27.
pub fn dense_block(n: usize, scale: i64, random: &mut Random) -> FactorLists<i64> {
    let u: Vec<i64> = (0..n).map(|_| random.pick(&[1, 2, -1, -2])).collect();
    let mut columns = unit(n);
    for (j, column) in columns.iter_mut().enumerate() {
        let factor = |i: usize| if i + 1 == n { scale } else { 1 };
        column.extend((j + 1..n).map(|i| (i, factor(i) * u[i] * (2 / u[j]))));
    }
    lists(&columns)
}
