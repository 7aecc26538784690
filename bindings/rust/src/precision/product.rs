//! The product of a sparse lower factor with its transpose, column by column.

use std::ops::ControlFlow;

/// A lower factor by columns and by rows.
pub struct Lower<V> {
    n: usize,
    starts: Vec<usize>,
    entries: Vec<(usize, V)>,
    /// Of each row the columns, with the place among the entries.
    of_row: Vec<Vec<(usize, usize)>>,
}

impl<V: Copy> Lower<V> {
    /// Of entries (row, column, value) on and below the diagonal, by column then row.
    pub fn new(n: usize, triplets: Vec<(usize, usize, V)>) -> Self {
        let mut starts = vec![0; n + 1];
        let mut of_row = vec![Vec::new(); n];
        for (place, (row, column, _)) in triplets.iter().enumerate() {
            starts[column + 1] = place + 1;
            of_row[*row].push((*column, place));
        }
        for column in 0..n {
            starts[column + 1] = starts[column + 1].max(starts[column]);
        }
        Self {
            n,
            starts,
            entries: triplets.into_iter().map(|(row, _, value)| (row, value)).collect(),
            of_row,
        }
    }

    /// The diagonal entry of a column, where there is one.
    pub fn diagonal(&self, column: usize) -> Option<V> {
        let first = self.entries[self.starts[column]..self.starts[column + 1]].first();
        first.filter(|(row, _)| *row == column).map(|(_, value)| *value)
    }

    /// Goes through the columns of the product on and below its diagonal: `add` takes the product of two entries of a
    /// column into a total, and `column` is given the totals of each column. It may add rows to them, and stop.
    pub fn product<T: Copy + Default>(
        &self,
        add: impl Fn(&mut T, [V; 2], usize),
        mut column: impl FnMut(usize, &mut Totals<T>) -> ControlFlow<()>,
    ) {
        let mut totals = Totals {
            totals: vec![T::default(); self.n],
            is_in: vec![false; self.n],
            rows: Vec::new(),
        };
        for j in 0..self.n {
            for (k, place) in &self.of_row[j] {
                let (_, other) = self.entries[*place];
                for (row, value) in &self.entries[*place..self.starts[k + 1]] {
                    add(totals.at(*row), [*value, other], *k);
                }
            }
            if column(j, &mut totals).is_break() {
                return;
            }
            totals.clear();
        }
    }
}

/// The totals of a column, of the rows that have one.
pub struct Totals<T> {
    totals: Vec<T>,
    is_in: Vec<bool>,
    pub rows: Vec<usize>,
}

impl<T: Copy + Default> Totals<T> {
    /// That of a row, which is in from now on.
    pub fn at(&mut self, row: usize) -> &mut T {
        if !std::mem::replace(&mut self.is_in[row], true) {
            self.rows.push(row);
        }
        &mut self.totals[row]
    }

    /// The rows with their totals.
    pub fn entries(&self) -> impl Iterator<Item = (usize, T)> + '_ {
        self.rows.iter().map(|row| (*row, self.totals[*row]))
    }

    fn clear(&mut self) {
        for row in self.rows.drain(..) {
            self.totals[row] = T::default();
            self.is_in[row] = false;
        }
    }
}
