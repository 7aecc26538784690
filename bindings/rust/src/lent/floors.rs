//! Variances: a floor under them, and the least of them.

use crate::{CountAndLeast, Error, VarianceFloor};

/// The floor that was applied, and how many values were not above it.
#[derive(Debug, Clone, Copy, PartialEq)]
pub struct Floored {
    /// The floor.
    pub floor: f64,
    /// Values that were not above it.
    pub floor_hits: usize,
}

/// Writes each value, or the floor where the value is not above it.
///
/// Refuses with 1, 13, 14, 7.
pub fn stabilize_variances(values: &[f64], floor: VarianceFloor, output: &mut [f64]) -> Result<Floored, Error> {
    let reply = match floor {
        VarianceFloor::Zero => lend!(redstartgilt_stabilize_variances_zero: [values] {output}),
        VarianceFloor::PositiveMean { scale } => {
            lend!(redstartgilt_stabilize_variances_positive_mean: [values] (scale) {output})
        }
    };
    Error::check(reply.refusal)?;
    Ok(Floored {
        floor: reply.floor,
        floor_hits: reply.floor_hits,
    })
}

/// How many values are negative, and the least of them all. Never refuses.
pub fn count_and_least(values: &[f64]) -> CountAndLeast {
    let reply = lend!(redstartgilt_count_and_least: [values]);
    CountAndLeast {
        num_negative: reply.num_negative,
        min_value: reply.min_value,
    }
}
