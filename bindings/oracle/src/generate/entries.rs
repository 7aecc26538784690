//! Random factors and requests.

use crate::limits::{closed_size, jumbled, some_limit, some_requests, Limit, MOST};
use crate::values::{odd_diagonals, odd_values, ordinary, ordinary_diagonal, some_factor, sometimes, Density};
use crate::writer::Writer;
use std::io;

pub fn random(writer: &mut Writer) -> io::Result<()> {
    for k in 0..4000 {
        let random = &mut writer.random;
        let n = 1 + random.below(if k % 4 == 0 { 8 } else { 64 });
        let density = Density {
            below: random.pick(&[0.02, 0.05, 0.1, 0.2, 0.5, 0.9]) / if n > 30 { 2.0 } else { 1.0 },
            zeros: random.pick(&[0.0, 0.0, 0.05, 0.3]),
            above: random.pick(&[0.0, 0.0, 0.1]),
        };
        let factor = some_factor(random, n, density, ordinary, ordinary_diagonal);
        let requests = some_requests(random, n);
        let size = closed_size(&factor, &requests);
        let requests = jumbled(random, &requests);
        let limit = some_limit(random, size);
        writer.entries(&factor, &requests, limit)?;
    }
    Ok(())
}

/// Odd values and diagonals, in most cases few, so that not every entry is NaN.
pub fn special(writer: &mut Writer) -> io::Result<()> {
    for k in 0..3000 {
        let random = &mut writer.random;
        let n = 1 + random.below(12);
        let odd = [0.03, 0.1, 0.3, 1.0][k % 4];
        let density = Density { below: random.pick(&[0.2, 0.5, 0.9]), zeros: 0.1, above: 0.1 };
        let factor = some_factor(
            random,
            n,
            density,
            |random| sometimes(random, odd, &odd_values(), ordinary),
            |random| sometimes(random, odd, &odd_diagonals(), ordinary_diagonal),
        );
        let requests = some_requests(random, n);
        let size = closed_size(&factor, &requests);
        let requests = jumbled(random, &requests);
        let limit = if k % 3 == 0 { some_limit(random, size) } else { Limit::At(MOST) };
        writer.entries(&factor, &requests, limit)?;
    }
    Ok(())
}
