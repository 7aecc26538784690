//! Values with marks as values that are there or not.

use crate::lent;
use crate::Error;

/// The values whose mark is not 0.
pub(crate) fn covered(values: &[f64], marks: &[u8]) -> Vec<Option<f64>> {
    let cells = values.iter().zip(marks);
    cells.map(|(value, mark)| (*mark != 0).then_some(*value)).collect()
}

/// Values in factor order put in original order, each with whether it is there.
pub(crate) fn permuted(orig_to_perm: &[u32], input: &[Option<f64>]) -> Result<Vec<Option<f64>>, Error> {
    let values = input.iter().map(|value| value.unwrap_or(0.0)).collect::<Vec<_>>();
    let marks = input.iter().map(|value| u8::from(value.is_some())).collect::<Vec<_>>();
    let (mut moved, mut moved_marks) = (vec![0.0; orig_to_perm.len()], vec![0; orig_to_perm.len()]);
    lent::permute_factor_to_original_marked(orig_to_perm, &values, &marks, &mut moved, &mut moved_marks)?;
    Ok(covered(&moved, &moved_marks))
}
