//! The scale of colours of a map.

use crate::colours::Colours;
use std::fmt::Write;

/// Colours from the least variance to the largest, each lighter than the one before.
const COLOURS: [[f64; 3]; 5] = [
    [68.0, 1.0, 84.0],
    [59.0, 82.0, 139.0],
    [33.0, 145.0, 140.0],
    [94.0, 201.0, 98.0],
    [253.0, 231.0, 37.0],
];
const TICKS: usize = 5;

/// The ends of the colours: a range, or the least and the largest of the variances that have a place.
#[derive(Debug, Clone, Copy, PartialEq)]
pub struct Scale {
    least: f64,
    largest: f64,
    log: bool,
}

impl Scale {
    /// The scale of a range, or of some values; values that have no place on it are passed over.
    pub fn coloured(values: impl Iterator<Item = f64>, colours: Colours) -> Option<Scale> {
        let ends = values.filter(|value| colours.takes(*value)).fold(None, |ends, value| {
            let (least, largest) = ends.unwrap_or((value, value));
            Some((value.min(least), value.max(largest)))
        });
        let (least, largest) = colours.range.or(ends)?;
        Some(Scale {
            least,
            largest,
            log: colours.log,
        })
    }

    /// The colour of a value that has a place on the scale.
    pub fn colour(&self, value: f64) -> String {
        colour(self.share(value))
    }

    /// Where a value stands between the ends; halves keep the difference of two large ones finite.
    fn share(&self, value: f64) -> f64 {
        let [value, least, largest] = [value, self.least, self.largest].map(|value| match self.log {
            true => value.ln(),
            false => value / 2.0,
        });
        let whole = largest - least;
        if whole > 0.0 {
            (value - least) / whole
        } else {
            0.5
        }
    }

    /// Values from the least to the largest, each with its share; one where all are equal.
    pub fn ticks(&self) -> Vec<(f64, f64)> {
        if self.least == self.largest {
            return vec![(0.5, self.least)];
        }
        (0..TICKS)
            .map(|tick| {
                let part = tick as f64 / (TICKS - 1) as f64;
                let mixed = |least: f64, largest: f64| least * (1.0 - part) + largest * part;
                let value = match self.log {
                    // The ends are themselves.
                    true if tick == 0 => self.least,
                    true if tick == TICKS - 1 => self.largest,
                    true => mixed(self.least.ln(), self.largest.ln()).exp(),
                    false => mixed(self.least, self.largest),
                };
                (part, value)
            })
            .collect()
    }

    /// The colours of the scale with their shares, for a gradient.
    pub fn stops() -> impl Iterator<Item = (f64, String)> {
        (0..COLOURS.len()).map(|stop| {
            let part = stop as f64 / (COLOURS.len() - 1) as f64;
            (part, colour(part))
        })
    }
}

/// A colour for a share of the scale from 0 to 1.
fn colour(share: f64) -> String {
    let place = share.clamp(0.0, 1.0) * (COLOURS.len() - 1) as f64;
    let below = (place.floor() as usize).min(COLOURS.len() - 2);
    let part = place - below as f64;
    let mut text = String::from("#");
    for (from, to) in COLOURS[below].iter().zip(COLOURS[below + 1]) {
        let _ = write!(text, "{:02x}", (from + (to - from) * part).round() as u8);
    }
    text
}

/// Three or four digits, for a legend.
pub fn short(value: f64) -> String {
    if value == 0.0 || (1e-3..1e5).contains(&value.abs()) {
        let digits = if value.abs() >= 100.0 {
            1
        } else if value.abs() >= 1.0 {
            2
        } else {
            4
        };
        format!("{value:.digits$}")
    } else {
        format!("{value:.2e}")
    }
}

#[cfg(test)]
impl Scale {
    /// The scale of some values by themselves.
    pub fn of(values: impl Iterator<Item = f64>) -> Option<Scale> {
        Self::coloured(values, Colours::default())
    }
}

#[cfg(test)]
mod tests {
    use super::{short, Scale};
    use crate::colours::Colours;

    #[test]
    fn colours_of_a_scale() {
        assert_eq!(Scale::of([f64::NAN, f64::INFINITY].into_iter()), None);
        let scale = Scale::of([2.0, f64::NAN, 1.0, 3.0].into_iter()).unwrap();
        assert_eq!(scale.colour(1.0), "#440154");
        assert_eq!(scale.colour(2.0), "#21918c");
        assert_eq!(scale.colour(3.0), "#fde725");
        assert_eq!(
            scale.ticks(),
            [(0.0, 1.0), (0.25, 1.5), (0.5, 2.0), (0.75, 2.5), (1.0, 3.0)]
        );
        let widest = Scale::of([f64::MAX, f64::MIN].into_iter()).unwrap();
        assert_eq!(widest.colour(0.0), "#21918c");
        let single = Scale::of([4.0].into_iter()).unwrap();
        assert_eq!(
            (single.colour(4.0), single.ticks()),
            ("#21918c".to_string(), vec![(0.5, 4.0)])
        );
    }

    #[test]
    fn logarithmic_and_given_scales() {
        let log = |range| Colours { range, log: true };
        assert_eq!(Scale::coloured([0.0, -1.0].into_iter(), log(None)), None);
        let scale = Scale::coloured([0.25, 0.0, 64.0].into_iter(), log(None)).unwrap();
        let ticks = scale.ticks();
        assert_eq!((ticks[0], ticks[4]), ((0.0, 0.25), (1.0, 64.0)));
        for ((_, found), expected) in ticks.iter().zip([0.25, 1.0, 4.0, 16.0, 64.0]) {
            assert!((found - expected).abs() <= 1e-14 * expected, "{found}");
        }
        assert_eq!(scale.colour(4.0), "#21918c");
        let least = Scale::coloured([f64::MIN_POSITIVE / 4.0, f64::MAX].into_iter(), log(None)).unwrap();
        assert_eq!(
            (least.colour(f64::MIN_POSITIVE / 4.0), least.colour(f64::MAX)),
            ("#440154".to_string(), "#fde725".to_string())
        );
        // A range is a scale whatever the values.
        for values in [&[][..], &[7.0, 2.0]] {
            let colours = Colours {
                range: Some((1.0, 3.0)),
                log: false,
            };
            let given = Scale::coloured(values.iter().copied(), colours).unwrap();
            assert_eq!((given.ticks()[0], given.ticks()[4]), ((0.0, 1.0), (1.0, 3.0)));
            assert_eq!(
                (given.colour(7.0), given.colour(0.0)),
                (given.colour(3.0), given.colour(1.0))
            );
        }
    }

    #[test]
    fn short_numbers() {
        for (value, text) in [
            (0.0, "0.0000"),
            (0.12345, "0.1235"),
            (-1.0, "-1.00"),
            (123.45, "123.5"),
            (1e-9, "1.00e-9"),
            (1e5, "1.00e5"),
        ] {
            assert_eq!(short(value), text);
        }
    }
}
