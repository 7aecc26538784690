//! Factors whose recurrence is exact, or nearly so.

use crate::limits::{closed_size, diagonal, jumbled, some_limit, some_requests, Limit, MOST};
use crate::small::f2_with;
use crate::values::{some_factor, whole, Density, LARGEST_EXACT};
use crate::writer::Writer;
use cases::factor::{Column, Factor};
use cases::random::Random;
use std::io;

/// Diagonals of 1 and whole numbers, within 2^53 and past it.
pub fn exact(writer: &mut Writer) -> io::Result<()> {
    two_columns(writer)?;
    sums_of_squares(writer)?;
    past_the_largest(writer)?;
    random_whole_numbers(writer)?;
    bands(writer)
}

/// Two columns, with squares around 2^53.
fn two_columns(writer: &mut Writer) -> io::Result<()> {
    let roots = [94906264.0, 94906265.0, 94906266.0, 94906267.0, 67108864.0, 134217728.0];
    let others = [LARGEST_EXACT, LARGEST_EXACT - 1.0, LARGEST_EXACT + 2.0, 3002399751580331.0];
    for size in roots.into_iter().chain(others) {
        for value in [size, -size] {
            for pair in [(0, 0), (1, 0), (1, 1)] {
                writer.entries(&f2_with(value), &[pair], Limit::At(3))?;
            }
        }
    }
    Ok(())
}

/// Entry (0,0) is the sum of 1 and four squares: 2^53, and 2^53 - 1.
fn sums_of_squares(writer: &mut Writer) -> io::Result<()> {
    for roots in [[94906265.0, 10885.0, 71.0, 50.0], [94906265.0, 10885.0, 86.0, 12.0]] {
        let mut columns: Vec<Column> = (0..5).map(|c| vec![(c, 1.0)]).collect();
        columns[0].extend((1..5).zip(roots));
        writer.entries(&Factor::from_columns(&columns), &[(0, 0)], Limit::At(MOST))?;
    }
    Ok(())
}

fn past_the_largest(writer: &mut Writer) -> io::Result<()> {
    // Sums and entries are within 2^53, the product 3 · 3002399751580331 is 2^53 + 1.
    let factor = Factor::from_columns(&[
        vec![(0, 1.0), (1, 1.0), (2, 3.0)],
        vec![(1, 1.0), (3, 5.0)],
        vec![(2, 1.0), (3, -3002399751580331.0)],
        vec![(3, 1.0)],
    ]);
    let expected = ["status Complete", "closure 4"];
    writer.named_entries("product-past-2^53", &factor, &[(3, 0)], Limit::At(4), &expected)?;
    // A whole entry past 2^53 that is only multiplied with zeros.
    let columns = [vec![(0, 1.0), (1, 1e300)], vec![(1, 1.0), (2, 1.0)], vec![(2, 1.0)], vec![(3, 1.0)]];
    let factor = Factor::from_columns(&columns);
    writer.named_entries("huge-entry-meets-zero", &factor, &[(3, 0)], Limit::At(9), &["status Complete"])
}

fn random_whole_numbers(writer: &mut Writer) -> io::Result<()> {
    for k in 0..4000 {
        let random = &mut writer.random;
        let n = 1 + random.below([6, 12, 24, 48][k % 4]);
        let most = random.pick(&[1i64, 1, 2, 3, 9, 100, 1 << 20, 1 << 26]);
        let density = Density {
            below: random.pick(&[0.5, 1.0, 1.5, 2.5, 6.0]) / n as f64,
            zeros: random.pick(&[0.0, 0.0, 0.1]),
            above: random.pick(&[0.0, 0.0, 0.1]),
        };
        let factor = some_factor(random, n, density, |random| whole(random, most), |_| 1.0);
        let requests = some_requests(random, n);
        let size = closed_size(&factor, &requests);
        let requests = jumbled(random, &requests);
        let limit = match k % 5 {
            0 => some_limit(random, size),
            1 => Limit::At(size),
            _ => Limit::At(MOST),
        };
        writer.entries(&factor, &requests, limit)?;
    }
    Ok(())
}

/// Banded factors, whose pattern is closed: the Rust goes by it.
fn bands(writer: &mut Writer) -> io::Result<()> {
    for _ in 0..300 {
        let random = &mut writer.random;
        let n = 2 + random.below(20);
        let width = 1 + random.below(3);
        let mut columns: Vec<Column> = (0..n).map(|c| vec![(c, 1.0)]).collect();
        for (c, column) in columns.iter_mut().enumerate() {
            column.extend((c + 1..n.min(c + width + 1)).map(|r| (r, whole(random, 1))));
        }
        writer.entries(&Factor::from_columns(&columns), &diagonal(n), Limit::Default)?;
    }
    Ok(())
}

/// Diagonals that are powers of two, with whole numbers divided by one; then diagonals of 1 and 3.
pub fn dyadic(writer: &mut Writer) -> io::Result<()> {
    for k in 0..1500 {
        let random = &mut writer.random;
        let n = 1 + random.below(if k % 3 == 0 { 20 } else { 7 });
        let scale = 2f64.powi(random.below(5) as i32);
        let density = Density { below: random.pick(&[1.0, 2.0, 4.0]) / n as f64, zeros: 0.05, above: 0.05 };
        let twos = random.chance(0.2);
        let power = |random: &mut Random| random.pick(&[0.25, 0.5, 1.0, 1.0, 2.0, 4.0]);
        let value = |random: &mut Random| whole(random, 8) / scale;
        let factor = some_factor(random, n, density, value, |random| if twos { 2.0 } else { power(random) });
        let requests = some_requests(random, n);
        let size = closed_size(&factor, &requests);
        let limit = if k % 4 == 0 { some_limit(random, size) } else { Limit::At(MOST) };
        writer.entries(&factor, &requests, limit)?;
    }
    for _ in 0..300 {
        let random = &mut writer.random;
        let n = 1 + random.below(5);
        let density = Density { below: 0.6, zeros: 0.0, above: 0.0 };
        let value = |random: &mut Random| whole(random, 4) * 3.0;
        let factor = some_factor(random, n, density, value, |random| random.pick(&[1.0, 3.0]));
        let requests = some_requests(random, n);
        writer.entries(&factor, &requests, Limit::At(MOST))?;
    }
    Ok(())
}
