//! Whether the printed entries are the exact ones, by the proved theorem on factors of multiples of powers of two.

use crate::failure::{Failure, NOT_EXACT};
use crate::report::Value;
use redstartgilt::{
    count_and_least, exact_multipliers, least_exact_multipliers, CholeskyFactor, NotExact, SparseSymmetricPattern,
    MAX_SCALE,
};
use std::ffi::OsStr;
use std::fmt::{self, Debug, Display, Formatter};

/// The scale s that is asked for: every number is to be a whole multiple of 2^-s.
#[derive(Debug, Clone, Copy, PartialEq, Eq)]
pub enum Scale {
    Given(u32),
    Least,
}

impl Scale {
    /// A number from 0 to 53, or the word `least`.
    pub fn read(value: &OsStr) -> Option<Self> {
        let text = value.to_str()?;
        if text == "least" {
            return Some(Scale::Least);
        }
        let number = text.parse().ok().filter(|scale| *scale <= MAX_SCALE)?;
        // As in other options, digits alone.
        text.bytes()
            .all(|byte| byte.is_ascii_digit())
            .then_some(Scale::Given(number))
    }
}

/// A float that is an exact number, printed with all its digits.
#[derive(Clone, Copy, PartialEq)]
pub struct Exact(pub f64);

impl Debug for Exact {
    fn fmt(&self, f: &mut Formatter<'_>) -> fmt::Result {
        // A multiple of 2^-53 has no more digits than these, and none of them is rounded. The sum makes 0.0 of -0.0.
        let text = format!("{:.*}", MAX_SCALE as usize, self.0 + 0.0);
        let short = text.trim_end_matches('0');
        f.write_str(short)?;
        f.write_str(if short.ends_with('.') { "0" } else { "" })
    }
}

impl Value for Exact {
    const FIELD: &'static str = "real";
    const EXACT: &'static str = "exact_";
    const SENTENCE: Option<&'static str> =
        Some("Exact: by the proved theorem these are the exact entries of the inverse, with all their digits.");

    fn float(self) -> f64 {
        self.0
    }

    fn summary(values: &[Self]) -> String {
        let floats = values.iter().map(|value| value.0).collect::<Vec<_>>();
        let counted = count_and_least(&floats);
        format!(
            "{} of them negative, the least {:?}",
            counted.num_negative,
            Exact(counted.min_value)
        )
    }
}

/// Checks the theorem's hypotheses; the scale, or a failure that has the number that does not meet them.
pub fn check(
    place: impl Display,
    factor: &CholeskyFactor,
    requested: &SparseSymmetricPattern,
    scale: Scale,
) -> Result<u32, Failure> {
    let checked = match scale {
        Scale::Given(scale) => exact_multipliers(factor, requested, scale),
        Scale::Least => least_exact_multipliers(factor, requested),
    };
    let reason = match checked {
        Ok(multipliers) => return Ok(multipliers.scale()),
        Err(NotExact::Refused(error)) => return Err(Failure::refused_at(place, error)),
        Err(reason) => reason,
    };
    let permutation = factor.permutation().orig_to_perm;
    let order = if permutation.iter().enumerate().any(|(cell, place)| cell != *place) {
        " Rows and columns are those of the factor's order."
    } else {
        ""
    };
    let told = reason.told_from(1);
    Err(Failure {
        message: match scale {
            Scale::Given(scale) => format!("{place}: no, with s = {scale} nothing is promised: {told}.{order}"),
            Scale::Least => {
                format!("{place}: no, with no s from 0 to {MAX_SCALE} is anything promised: {told}.{order}")
            }
        },
        status: NOT_EXACT,
    })
}

/// That the hypotheses are met, in a line.
pub fn yes(scale: u32) -> String {
    format!(
        "Yes, with s = {scale}: the hypotheses of the proved theorem on exact entries are met. This command has checked \
         them; its own code is tested, and not proved."
    )
}

#[cfg(test)]
mod tests {
    use super::{Exact, Scale};
    use std::ffi::OsStr;

    #[test]
    fn digits() {
        for (value, text) in [
            (0.0, "0.0"),
            (-0.0, "0.0"),
            (10.0, "10.0"),
            (-0.8125, "-0.8125"),
            (9_007_199_254_740_992.0, "9007199254740992.0"),
            (
                2f64.powi(-53),
                "0.00000000000000011102230246251565404236316680908203125",
            ),
        ] {
            assert_eq!(format!("{:?}", Exact(value)), text);
        }
    }

    #[test]
    fn scales() {
        let read = |text: &str| Scale::read(OsStr::new(text));
        assert_eq!(read("0"), Some(Scale::Given(0)));
        assert_eq!(read("53"), Some(Scale::Given(53)));
        assert_eq!(read("least"), Some(Scale::Least));
        for text in ["54", "-1", "+4", "4.0", "", "Least", "f.mtx"] {
            assert_eq!(read(text), None, "{text}");
        }
    }
}
