//! Floors under variances, and the count of negative ones.

use crate::lent;
use crate::Error;

/// Which floor is put under variances.
#[derive(Debug, Clone, Copy, PartialEq, Default)]
pub enum VarianceFloor {
    /// 0.0: only negative values are raised.
    #[default]
    Zero,
    /// `max(|mean of the positive values|, 1) * scale`; the mean of no values is 1.
    PositiveMean {
        /// Finite and not below 0.
        scale: f64,
    },
}

/// Variances with a floor under them.
#[derive(Debug, Clone, PartialEq)]
pub struct StabilizedVariance {
    /// Each value, or the floor where the value was not above it.
    pub values: Vec<f64>,
    /// The floor.
    pub floor: f64,
    /// Values that were not above the floor.
    pub floor_hits: usize,
}

/// How many values are negative, and the least of them all.
#[derive(Debug, Clone, Copy, PartialEq)]
pub struct CountAndLeast {
    /// Values below 0.
    pub num_negative: usize,
    /// The least value, NaN passed over: infinity where there are only NaNs, 0.0 for no values.
    pub min_value: f64,
}

/// Puts a floor under variances.
///
/// Refuses with [`Error::TooLarge`] above 1,048,576 values, with [`Error::NotFinite`] for a value that is not finite,
/// then with [`Error::BadScale`].
///
/// ```
/// use redstartgilt::{stabilize_variances, VarianceFloor};
///
/// let floor = VarianceFloor::PositiveMean { scale: 0.5 };
/// let stabilized = stabilize_variances(&[4.0, -2.0, 0.0], floor)?;
/// assert_eq!(stabilized.floor, 2.0);
/// assert_eq!(stabilized.values, [4.0, 2.0, 2.0]);
/// assert_eq!(stabilized.floor_hits, 2);
/// # Ok::<(), redstartgilt::Error>(())
/// ```
pub fn stabilize_variances(variances: &[f64], floor: VarianceFloor) -> Result<StabilizedVariance, Error> {
    let mut values = vec![0.0; variances.len()];
    let floored = lent::stabilize_variances(variances, floor, &mut values)?;
    Ok(StabilizedVariance {
        values,
        floor: floored.floor,
        floor_hits: floored.floor_hits,
    })
}

/// How many values are negative, and the least of them all; of two zeros the earlier.
///
/// ```
/// let counted = redstartgilt::count_and_least(&[3.0, -1.0, 2.0]);
/// assert_eq!(counted.num_negative, 1);
/// assert_eq!(counted.min_value, -1.0);
/// ```
pub fn count_and_least(values: &[f64]) -> CountAndLeast {
    lent::count_and_least(values)
}
