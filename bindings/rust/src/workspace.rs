//! Memory that calls use again.

use crate::columns::Columns;
use crate::lent::{chain_places, chain_words, result_places, scratch_words, ResultLists};

/// Result lists and scratch for one call after another.
///
/// A call makes them longer where it needs to and never shorter. In dimension 4,096 they take up to 135 megabytes, 168
/// once a chain was asked for and 134 more once entries were asked for in whole numbers, so a caller who makes many calls
/// should lend one workspace to all. Answers do not depend on what a workspace was used for before.
///
/// ```
/// use redstartgilt::{selected_inverse_diag_with_diagnostics_in, CholeskyFactor, Workspace};
///
/// let mut workspace = Workspace::new();
/// for diagonal in [1.0, 2.0] {
///     let factor = CholeskyFactor::new(1, vec![0, 1], vec![0], vec![diagonal])?;
///     let result = selected_inverse_diag_with_diagnostics_in(&factor, &mut workspace)?;
///     assert_eq!(result.estimate.values, [1.0 / (diagonal * diagonal)]);
/// }
/// # Ok::<(), redstartgilt::Error>(())
/// ```
#[derive(Debug, Clone, Default)]
pub struct Workspace {
    starts: Vec<u32>,
    rows: Vec<u32>,
    values: Vec<f64>,
    scratch: Vec<u32>,
    whole_values: Vec<i64>,
    work: Vec<i64>,
}

/// At least `length` places. A longer list is allocated anew, as nothing in it needs to be kept.
fn grown<T: Clone + Default>(list: &mut Vec<T>, length: usize) -> &mut [T] {
    if list.len() < length {
        *list = Vec::new();
        *list = vec![T::default(); length];
    }
    &mut list[..length]
}

impl Workspace {
    /// A workspace without memory yet.
    pub fn new() -> Self {
        Self::default()
    }

    /// The bytes that it holds.
    pub fn bytes(&self) -> usize {
        4 * (self.starts.len() + self.rows.len() + self.scratch.len())
            + 8 * (self.values.len() + self.whole_values.len() + self.work.len())
    }

    /// Lists for a dimension that the library accepts, and a limit.
    pub(crate) fn lend(&mut self, n: usize, limit: usize) -> (ResultLists<'_>, &mut [u32]) {
        let places = result_places(n, limit);
        (
            ResultLists {
                starts: grown(&mut self.starts, n + 1),
                rows: grown(&mut self.rows, places),
                values: grown(&mut self.values, places),
            },
            grown(&mut self.scratch, scratch_words(n)),
        )
    }

    /// The same in whole numbers, with a work list.
    pub(crate) fn lend_whole(&mut self, n: usize, limit: usize) -> (ResultLists<'_, i64>, &mut [u32], &mut [i64]) {
        let places = result_places(n, limit);
        (
            ResultLists {
                starts: grown(&mut self.starts, n + 1),
                rows: grown(&mut self.rows, places),
                values: grown(&mut self.whole_values, places),
            },
            grown(&mut self.scratch, scratch_words(n)),
            grown(&mut self.work, places),
        )
    }

    /// Scratch for a chain, and its rows and columns, which take the places of a result's rows and starts.
    pub(crate) fn lend_chain(&mut self, n: usize) -> (&mut [u32], &mut [u32], &mut [u32]) {
        (
            grown(&mut self.scratch, chain_words(n)),
            grown(&mut self.rows, chain_places(n)),
            grown(&mut self.starts, chain_places(n)),
        )
    }

    /// The filled part of the result lists, copied.
    pub(crate) fn filled(&self, n: usize, pairs: usize) -> Columns<f64> {
        self.columns(n, pairs, &self.values)
    }

    /// The same in whole numbers.
    pub(crate) fn filled_whole(&self, n: usize, pairs: usize) -> Columns<i64> {
        self.columns(n, pairs, &self.whole_values)
    }

    fn columns<V: Clone>(&self, n: usize, pairs: usize, values: &[V]) -> Columns<V> {
        Columns {
            n,
            starts: self.starts[..n + 1].to_vec(),
            rows: self.rows[..pairs].to_vec(),
            values: values[..pairs].to_vec(),
        }
    }
}
