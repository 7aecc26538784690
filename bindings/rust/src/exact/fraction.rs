//! Exact numbers of the recurrence.

use super::MAX_MULTIPLIER;
use std::fmt::{self, Display, Formatter};

/// An exact number: a fraction in lowest terms, its powers of two apart.
///
/// It is shown as a whole number or a fraction, as in `-3` and `13/16`; powers of two that 128 bits do not hold are left as
/// they are, as in `3*2^200` and `1/2^1000`.
#[derive(Debug, Clone, Copy, PartialEq, Eq)]
pub struct Fraction {
    /// Odd, or 0.
    numerator: i128,
    /// Odd, above 0, and 1 where the numerator is 0.
    denominator: i128,
    /// The power of two that the fraction is multiplied with; 0 where the numerator is 0.
    exponent: i32,
}

/// Why a number is not covered.
#[derive(Debug, Clone, Copy, PartialEq, Eq)]
pub enum ExactFault {
    /// It is no whole multiple of 2^-scale.
    NoMultiple,
    /// It is one, with a multiplier of more than 2^53 in size.
    MultiplierTooLarge,
}

fn greatest_divisor(mut one: i128, mut other: i128) -> i128 {
    while other != 0 {
        (one, other) = (other, one % other);
    }
    one
}

impl Fraction {
    /// numerator / denominator · 2^exponent; the denominator is odd and above 0.
    pub(super) fn new(numerator: i128, denominator: i128, exponent: i32) -> Self {
        if numerator == 0 {
            return Self {
                numerator,
                denominator: 1,
                exponent: 0,
            };
        }
        let divisor = greatest_divisor(denominator, numerator.abs());
        let (numerator, twos) = (numerator / divisor, numerator.trailing_zeros());
        Self {
            numerator: numerator >> twos,
            denominator: denominator / divisor,
            exponent: exponent + twos as i32,
        }
    }

    /// A finite float, as it is.
    pub(super) fn of(value: f64) -> Self {
        let bits = value.to_bits();
        let (exponent, fraction) = ((bits >> 52 & 0x7ff) as i32, (bits & ((1 << 52) - 1)) as i128);
        let size = if exponent == 0 { fraction } else { fraction | 1 << 52 };
        let numerator = if value.is_sign_negative() { -size } else { size };
        Self::new(numerator, 1, exponent.max(1) - 1075)
    }

    /// multiplier · 2^-scale.
    pub(super) fn multiple(multiplier: i64, scale: u32) -> Self {
        Self::new(multiplier.into(), 1, -(scale as i32))
    }

    /// The product of two numbers without denominators, each of at most 2^53 in size but for powers of two.
    pub(super) fn times(self, other: Self) -> Self {
        Self {
            numerator: self.numerator * other.numerator,
            denominator: 1,
            exponent: if self.numerator == 0 || other.numerator == 0 {
                0
            } else {
                self.exponent + other.exponent
            },
        }
    }

    /// The quotient of two numbers without denominators, the second above 0.
    pub(super) fn over(self, other: Self) -> Self {
        Self::new(self.numerator, other.numerator, self.exponent - other.exponent)
    }

    /// The least scale of which it is a whole multiple of 2^-scale, if there is one.
    pub(super) fn least_scale(self) -> Option<u32> {
        (self.denominator == 1).then(|| self.exponent.min(0).unsigned_abs())
    }

    /// Whether it is a whole multiple of 2^-scale.
    pub(super) fn is_multiple(self, scale: u32) -> bool {
        self.least_scale().is_some_and(|least| least <= scale)
    }

    /// Its multiplier of 2^-scale, where that is whole and within 2^53.
    pub(super) fn multiplier(self, scale: u32) -> Result<i64, ExactFault> {
        if !self.is_multiple(scale) {
            return Err(ExactFault::NoMultiple);
        }
        // Not below 0, as it is a multiple.
        let shift = (self.exponent + scale as i32) as u32;
        let within =
            self.numerator == 0 || (shift <= 53 && self.numerator.abs() <= i128::from(MAX_MULTIPLIER >> shift));
        if within {
            Ok((self.numerator as i64) << if self.numerator == 0 { 0 } else { shift })
        } else {
            Err(ExactFault::MultiplierTooLarge)
        }
    }
}

impl Display for Fraction {
    fn fmt(&self, f: &mut Formatter<'_>) -> fmt::Result {
        let power = self.exponent.unsigned_abs();
        let shown = |number: i128, power: u32| {
            if power == 0 {
                number.to_string()
            } else if power < number.unsigned_abs().leading_zeros() {
                (number << power).to_string()
            } else if number.abs() == 1 {
                format!("{}2^{power}", if number < 0 { "-" } else { "" })
            } else {
                format!("{number}*2^{power}")
            }
        };
        let (above, below) = if self.exponent < 0 { (0, power) } else { (power, 0) };
        f.write_str(&shown(self.numerator, above))?;
        let denominator = shown(self.denominator, below);
        match denominator.as_str() {
            "1" => Ok(()),
            product if product.contains('*') => write!(f, "/({product})"),
            number => write!(f, "/{number}"),
        }
    }
}

#[cfg(test)]
mod tests {
    use super::{ExactFault, Fraction};

    #[test]
    fn floats_are_taken_as_they_are() {
        for (value, shown) in [
            (0.0, "0"),
            (-0.0, "0"),
            (1.0, "1"),
            (-6.0, "-6"),
            (0.8125, "13/16"),
            (-1.5, "-3/2"),
            (2f64.powi(53), "9007199254740992"),
            (2f64.powi(126), "85070591730234615865843651857942052864"),
            (3.0 * 2f64.powi(200), "3*2^200"),
            (-(2f64.powi(1000)), "-2^1000"),
            (2f64.powi(-126), "1/85070591730234615865843651857942052864"),
            (5.0 * 2f64.powi(-300), "5/2^300"),
            (f64::from_bits(1), "1/2^1074"),
            (f64::MIN_POSITIVE, "1/2^1022"),
            (f64::MAX, "9007199254740991*2^971"),
        ] {
            assert_eq!(Fraction::of(value).to_string(), shown, "{value}");
        }
        assert_eq!(Fraction::new(-6, 9, 0).to_string(), "-2/3");
        assert_eq!(Fraction::new(4, 3, -400).to_string(), "1/(3*2^398)");
    }

    #[test]
    fn multipliers() {
        let (none, large) = (Err(ExactFault::NoMultiple), Err(ExactFault::MultiplierTooLarge));
        let most = 1i64 << 53;
        for (value, scale, multiplier) in [
            (Fraction::of(0.0), 0, Ok(0)),
            (Fraction::new(0, 9, -400), 3, Ok(0)),
            (Fraction::of(0.8125), 4, Ok(13)),
            (Fraction::of(0.8125), 3, none),
            (Fraction::of(-0.8125), 53, Ok(-13 << 49)),
            (Fraction::of(most as f64), 0, Ok(most)),
            (Fraction::of(-most as f64), 0, Ok(-most)),
            (Fraction::of(most as f64), 1, large),
            (Fraction::new(i128::from(most) + 1, 1, 0), 0, large),
            (Fraction::new(i128::from(most) - 1, 1, 0), 0, Ok(most - 1)),
            (Fraction::new(i128::from(most) - 1, 1, 0), 1, large),
            (Fraction::new(i128::from(most) - 1, 1, -53), 53, Ok(most - 1)),
            (Fraction::new(1, 1, -53), 53, Ok(1)),
            (Fraction::new(1, 1, -54), 53, none),
            (Fraction::new(1, 1, 1), 53, large),
            (Fraction::new(1, 1, 0), 53, Ok(most)),
            (Fraction::of(f64::MAX), 53, large),
            (Fraction::new(2, 3, 60), 53, none),
            (Fraction::new(6, 3, 0), 0, Ok(2)),
        ] {
            assert_eq!(value.multiplier(scale), multiplier, "{value} at {scale}");
        }
    }
}
