//! Whole numbers of any size.

use std::cmp::Ordering;
use std::ops::{Add, Mul, Neg, Shl, Sub};

/// The digits are of 32 bits, the lowest first, the last not 0; 0 is not negative.
#[derive(Clone, Debug, PartialEq, Eq)]
pub struct Big {
    negative: bool,
    digits: Vec<u32>,
}

impl From<i128> for Big {
    fn from(number: i128) -> Self {
        let size = number.unsigned_abs();
        Big::new(number < 0, (0..4).map(|at| (size >> (32 * at)) as u32).collect())
    }
}

impl From<i64> for Big {
    fn from(number: i64) -> Self {
        Big::from(i128::from(number))
    }
}

fn compare(one: &[u32], other: &[u32]) -> Ordering {
    one.len().cmp(&other.len()).then_with(|| one.iter().rev().cmp(other.iter().rev()))
}

fn sum(one: &[u32], other: &[u32]) -> Vec<u32> {
    let (mut digits, mut carry) = (Vec::new(), 0u64);
    for at in 0..one.len().max(other.len()) + 1 {
        let digit = |list: &[u32]| u64::from(list.get(at).copied().unwrap_or(0));
        carry += digit(one) + digit(other);
        digits.push(carry as u32);
        carry >>= 32;
    }
    digits
}

/// Of numbers whose first is not the smaller.
fn difference(one: &[u32], other: &[u32]) -> Vec<u32> {
    let (mut digits, mut borrow) = (Vec::new(), 0i64);
    for (at, &digit) in one.iter().enumerate() {
        borrow += i64::from(digit) - i64::from(other.get(at).copied().unwrap_or(0));
        digits.push(borrow as u32);
        borrow >>= 32;
    }
    digits
}

impl Big {
    fn new(negative: bool, mut digits: Vec<u32>) -> Self {
        while digits.last() == Some(&0) {
            digits.pop();
        }
        Big { negative: negative && !digits.is_empty(), digits }
    }

    pub fn is_zero(&self) -> bool {
        self.digits.is_empty()
    }

    pub fn power_of_two(power: usize) -> Self {
        &Big::from(1i64) << power
    }

    fn bits(&self) -> usize {
        self.digits.last().map_or(0, |last| 32 * self.digits.len() - last.leading_zeros() as usize)
    }

    /// The quotient by a number other than 0, where it is whole.
    pub fn divided_by(&self, other: &Big) -> Option<Big> {
        let (mut left, mut quotient) = (self.digits.clone(), vec![0; self.digits.len()]);
        for place in (0..(self.bits() + 1).saturating_sub(other.bits())).rev() {
            let shifted = other << place;
            if compare(&left, &shifted.digits) != Ordering::Less {
                left = Big::new(false, difference(&left, &shifted.digits)).digits;
                quotient[place / 32] |= 1 << (place % 32);
            }
        }
        left.is_empty().then(|| Big::new(self.negative != other.negative, quotient))
    }

    /// As a number of 64 bits, where it is within 2^53 in size.
    pub fn small(&self) -> Option<i64> {
        if compare(&self.digits, &Big::power_of_two(53).digits) == Ordering::Greater {
            return None;
        }
        let size = self.digits.iter().rev().fold(0i64, |size, &digit| size << 32 | i64::from(digit));
        Some(if self.negative { -size } else { size })
    }
}

impl Add for &Big {
    type Output = Big;
    fn add(self, other: &Big) -> Big {
        if self.negative == other.negative {
            return Big::new(self.negative, sum(&self.digits, &other.digits));
        }
        match compare(&self.digits, &other.digits) {
            Ordering::Less => Big::new(other.negative, difference(&other.digits, &self.digits)),
            _ => Big::new(self.negative, difference(&self.digits, &other.digits)),
        }
    }
}

impl Neg for &Big {
    type Output = Big;
    fn neg(self) -> Big {
        Big::new(!self.negative, self.digits.clone())
    }
}

impl Sub for &Big {
    type Output = Big;
    fn sub(self, other: &Big) -> Big {
        self + &-other
    }
}

impl Mul for &Big {
    type Output = Big;
    fn mul(self, other: &Big) -> Big {
        let mut digits = vec![0; self.digits.len() + other.digits.len()];
        for (at, &one) in self.digits.iter().enumerate() {
            let mut carry = 0u64;
            for (by, &two) in other.digits.iter().enumerate() {
                carry += u64::from(digits[at + by]) + u64::from(one) * u64::from(two);
                digits[at + by] = carry as u32;
                carry >>= 32;
            }
            digits[at + other.digits.len()] = carry as u32;
        }
        Big::new(self.negative != other.negative, digits)
    }
}

impl Shl<usize> for &Big {
    type Output = Big;
    fn shl(self, power: usize) -> Big {
        let mut digits = vec![0; power / 32];
        let mut carry = 0u64;
        for &digit in &self.digits {
            carry |= u64::from(digit) << (power % 32);
            digits.push(carry as u32);
            carry >>= 32;
        }
        digits.push(carry as u32);
        Big::new(self.negative, digits)
    }
}

#[cfg(test)]
mod tests {
    use super::Big;
    use crate::random::Random;

    /// Against numbers of 128 bits, and by laws past them.
    #[test]
    fn arithmetic() {
        let mut random = Random::new(3);
        let mut number = |bits: usize| (random.any_whole() >> random.below(bits)) as i128;
        for _ in 0..20_000 {
            let (a, b, c) = (number(64), number(64), number(64));
            let [x, y, z] = [a, b, c].map(Big::from);
            assert_eq!(&x + &y, Big::from(a + b));
            assert_eq!(&x - &y, Big::from(a - b));
            assert_eq!(-&x, Big::from(-a));
            assert_eq!(&x * &y, Big::from(a * b));
            assert_eq!(&x << 40, Big::from(a << 40));
            assert_eq!(x.small(), i64::try_from(a).ok().filter(|a| a.unsigned_abs() <= 1 << 53));
            assert_eq!(&(&(&x * &y) * &z) << 77, &x * &(&(&z << 77) * &y));
            assert_eq!(&(&(&x * &y) + &z) * &y, &(&(&y * &y) * &x) + &(&z * &y));
            if b != 0 {
                assert_eq!(x.divided_by(&y), (a % b == 0).then(|| Big::from(a / b)));
                let product = &(&x * &y) << 200;
                assert_eq!(product.divided_by(&y), Some(&x << 200));
                if b.abs() > 1 {
                    assert_eq!((&product + &Big::from(1i64)).divided_by(&(&y << 100)), None);
                }
            }
        }
    }
}
