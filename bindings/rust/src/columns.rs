//! Compressed columns: the layout of a factor and of entries.

use crate::index::{word, words};
use crate::lent::{EntryLists, FactorLists, Number};
use crate::{Error, MAX_DIMENSION};

/// n columns: n + 1 starts, then each column's row indices and values.
#[derive(Debug, Clone, PartialEq)]
pub(crate) struct Columns<V> {
    pub n: usize,
    pub starts: Vec<u32>,
    pub rows: Vec<u32>,
    pub values: Vec<V>,
}

impl<V: Number> Columns<V> {
    /// Columns of entries (row, column, value) in any order, for a check that refuses two at one position, a row of n or
    /// more, and n above the bound, for which no lists are made. A column of n or more gives [`Error::BrokenRows`] here.
    pub fn from_triplets(n: usize, triplets: &[(usize, usize, V)]) -> Result<Self, Error> {
        if n > MAX_DIMENSION {
            return Ok(Self {
                n,
                starts: Vec::new(),
                rows: Vec::new(),
                values: Vec::new(),
            });
        }
        if triplets.iter().any(|(_, column, _)| *column >= n) {
            return Err(Error::BrokenRows);
        }
        let mut sorted = triplets.to_vec();
        sorted.sort_by_key(|(row, column, _)| (*column, *row));
        let mut starts = vec![0; n + 1];
        for (_, column, _) in &sorted {
            starts[column + 1] += 1;
        }
        for column in 0..n {
            starts[column + 1] += starts[column];
        }
        Ok(Self {
            n,
            starts: words(&starts),
            rows: sorted.iter().map(|(row, _, _)| word(*row)).collect(),
            values: sorted.iter().map(|(_, _, value)| *value).collect(),
        })
    }

    /// The entries (row, column, value), by column then row, of columns that were checked or that a call has filled.
    pub fn entries(&self) -> impl Iterator<Item = (usize, usize, V)> + '_ {
        (0..self.n).flat_map(move |column| {
            let places = self.starts[column] as usize..self.starts[column + 1] as usize;
            places.map(move |place| (self.rows[place] as usize, column, self.values[place]))
        })
    }

    pub fn factor_lists(&self) -> FactorLists<'_, V> {
        FactorLists {
            n: self.n,
            starts: &self.starts,
            rows: &self.rows,
            values: &self.values,
        }
    }

    #[inline]
    pub fn entry_lists(&self) -> EntryLists<'_, V> {
        EntryLists {
            starts: &self.starts,
            rows: &self.rows,
            values: &self.values,
        }
    }
}
