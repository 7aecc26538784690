//! Values for factors, operators and lists: ordinary ones, whole numbers, and the odd ones.

use cases::factor::Factor;
use cases::random::Random;

/// Between -2 and 2, and not 0.
pub fn ordinary(random: &mut Random) -> f64 {
    match random.unit() * 4.0 - 2.0 {
        0.0 => 0.5,
        value => value,
    }
}

pub fn ordinary_diagonal(random: &mut Random) -> f64 {
    0.1 + 3.0 * random.unit()
}

/// A whole number of at most the given size, and not 0.
pub fn whole(random: &mut Random, most: i64) -> f64 {
    loop {
        match random.below(2 * most as usize + 1) as i64 - most {
            0 => {}
            value => return value as f64,
        }
    }
}

/// One of these with the given probability.
pub fn sometimes(random: &mut Random, probability: f64, odd: &[f64], otherwise: fn(&mut Random) -> f64) -> f64 {
    if random.chance(probability) {
        random.pick(odd)
    } else {
        otherwise(random)
    }
}

pub fn some_zero(random: &mut Random) -> f64 {
    if random.chance(0.5) {
        0.0
    } else {
        -0.0
    }
}

/// The numbers from 0 on in random order.
pub fn some_order(random: &mut Random, n: usize) -> Vec<usize> {
    let mut order: Vec<usize> = (0..n).collect();
    random.shuffle(&mut order);
    order
}

/// 2^53
pub const LARGEST_EXACT: f64 = 9007199254740992.0;

#[rustfmt::skip]
pub fn odd_values() -> [f64; 28] {
    [
        f64::INFINITY, f64::NEG_INFINITY,
        f64::NAN, -f64::NAN, f64::from_bits(0x7ff0000000000001), f64::from_bits(0xfff8000000001234),
        f64::MAX, f64::MIN, f64::MIN_POSITIVE, -f64::MIN_POSITIVE,
        5e-324, -5e-324, 1e-310, -1e-310,
        1e150, -1e150, 1e-150, -1e-150, 1e300, -1e300, 1e-300,
        1.0, -1.0, 0.1, 3.0, -0.3333333333333333,
        LARGEST_EXACT, -9007199254740993.0,
    ]
}

#[rustfmt::skip]
pub fn odd_diagonals() -> [f64; 19] {
    [
        1.0, 1.0, 1.0, 2.0, 0.5, 3.0, 0.1,
        1e-150, 1e150, 1e-160, 1e160, 5e-324, f64::MIN_POSITIVE, f64::MAX,
        f64::INFINITY, f64::NAN, -f64::NAN, 1e-308, 1e308,
    ]
}

/// How often a random factor stores an entry below the diagonal, a zero there, and an entry above it.
#[derive(Clone, Copy)]
pub struct Density {
    pub below: f64,
    pub zeros: f64,
    pub above: f64,
}

pub fn some_factor(
    random: &mut Random,
    n: usize,
    density: Density,
    value: impl Fn(&mut Random) -> f64,
    diagonal: impl Fn(&mut Random) -> f64,
) -> Factor {
    let mut columns = Vec::new();
    for c in 0..n {
        let mut column = Vec::new();
        for r in 0..c {
            if random.chance(density.above) {
                column.push((r, value(random)));
            }
        }
        column.push((c, diagonal(random)));
        for r in c + 1..n {
            if random.chance(density.zeros) {
                column.push((r, some_zero(random)));
            } else if random.chance(density.below) {
                column.push((r, value(random)));
            }
        }
        columns.push(column);
    }
    Factor::from_columns(&columns)
}
