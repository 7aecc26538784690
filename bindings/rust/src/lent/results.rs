//! A result: lookups, its check, its diagonal list.

use super::{EntryLists, Number};
use crate::{sys, Error};

/// What a lookup found, and how many places of the column its search looked at.
#[derive(Debug, Clone, Copy, PartialEq)]
pub struct CountedEntry {
    /// The entry, or the refusal.
    pub entry: Result<f64, Error>,
    /// Places looked at, repeats counted.
    pub looks: usize,
}

/// The entry at (row, column), which may be exchanged.
///
/// Refuses with 2 and 3 for a broken column, and with 8 for a pair that is absent or outside. It reads every row of the
/// column; [`get_well_formed`] does not.
pub fn get(entries: EntryLists<'_>, row: usize, column: usize) -> Result<f64, Error> {
    let reply = lend!(redstartgilt_get: entries(entries) (row) (column));
    Error::check(reply.refusal)?;
    Ok(reply.value)
}

/// [`get`], and how many places of the column its search looked at.
///
/// The search looks at the first place of its part and, unless the row stands there, at place m/2 of its m; then it goes
/// on in what lies below that place or above. So there is 1 look where the row stands first in its column, as a diagonal
/// does where it is present, and never more than twice the binary digits of the column's number of rows. An absent row
/// has its looks too; there are 0 where the column is not searched.
///
/// ```
/// use redstartgilt::lent::{self, EntryLists};
/// use redstartgilt::Error;
///
/// // Column 0 has the rows 0, 2 and 3.
/// let entries = EntryLists { starts: &[0, 3, 3, 3, 3], rows: &[0, 2, 3], values: &[5.0, -2.0, 1.0] };
/// let diagonal = lent::get_counted(entries, 0, 0);
/// assert_eq!((diagonal.entry, diagonal.looks), (Ok(5.0), 1));
/// let absent = lent::get_counted(entries, 1, 0);
/// assert_eq!((absent.entry, absent.looks), (Err(Error::NotCovered), 4));
/// ```
pub fn get_counted(entries: EntryLists<'_>, row: usize, column: usize) -> CountedEntry {
    let reply = lend!(redstartgilt_get_counted: entries(entries) (row) (column));
    CountedEntry {
        entry: Error::check(reply.refusal).map(|()| reply.value),
        looks: reply.looks,
    }
}

/// Whether entries are well formed, as [`get_well_formed`] presumes.
///
/// Refuses with 2 and 3, column by column. It serves floats and whole numbers, as it reads no value.
pub fn check_result<V: Number>(entries: EntryLists<'_, V>) -> Result<(), Error> {
    let values = entries.values;
    // SAFETY: a `Number` has size and alignment of f64, for which all bits are values.
    let values = unsafe { std::slice::from_raw_parts(values.as_ptr().cast::<f64>(), values.len()) };
    Error::check(lend!(redstartgilt_check_result: [entries.starts] [entries.rows] [values]))
}

/// The entry at (row, column), which may be exchanged, of entries that are known to be well formed: [`check_result`] has
/// accepted them, or a call has filled them. `None` for a pair that is absent or outside.
///
/// It answers as [`get`] does without checking the column: it reads the first row of the column; then, unless that is the
/// one sought, the last; then the row's own place where the rows are one run of consecutive numbers, otherwise about log2
/// of them. On entries that are not well formed it stays inside the lists, but what it gives is only what its search
/// comes upon.
///
/// ```
/// use redstartgilt::lent::{self, EntryLists};
///
/// let entries = EntryLists { starts: &[0, 3, 3, 3, 3], rows: &[0, 2, 3], values: &[5.0, -2.0, 1.0] };
/// lent::check_result(entries)?;
/// assert_eq!(lent::get_well_formed(entries, 0, 2), Some(-2.0));
/// assert_eq!(lent::get_well_formed(entries, 0, 1), None);
/// # Ok::<(), redstartgilt::Error>(())
/// ```
#[inline]
pub fn get_well_formed(entries: EntryLists<'_>, row: usize, column: usize) -> Option<f64> {
    let reply = lend!(redstartgilt_get_well_formed: entries(entries) (row) (column));
    (reply.refusal == sys::REDSTARTGILT_ACCEPTED).then_some(reply.value)
}

/// Writes the diagonal to `output` and `marks`: a diagonal that is among the entries is its value with the mark 1, also
/// where that is 0.0 or NaN, and one that is not is 0.0 with the mark 0.
///
/// Refuses with 2 and 3, column by column, then with 7 for either list.
///
/// ```
/// use redstartgilt::lent::{self, EntryLists};
///
/// // One entry, 0.25 at (1, 1).
/// let entries = EntryLists { starts: &[0, 0, 1], rows: &[1], values: &[0.25] };
/// let (mut values, mut marks) = ([7.0; 2], [7; 2]);
/// lent::diag(entries, &mut values, &mut marks)?;
/// assert_eq!((values, marks), ([0.0, 0.25], [0, 1]));
/// # Ok::<(), redstartgilt::Error>(())
/// ```
pub fn diag(entries: EntryLists<'_>, output: &mut [f64], marks: &mut [u8]) -> Result<(), Error> {
    Error::check(lend!(redstartgilt_diag: entries(entries) {output} {marks}))
}
