//! What a map's title, unit and colours are asked to be.

use crate::failure::Failure;
use crate::options::Options;
use std::ffi::OsString;

pub const HELP: &str = "  --title TEXT
      the title of the map, the page and the summary, in place of one with the
      factor's name; where answers are exact, that is added
  --unit TEXT
      the unit of a deviation, as in m, on maps and in the summary; that of
      variances is its square
  --range LOW,HIGH
      the variances at the ends of the map's colours, so that two maps have the
      same scale. Variances outside have the colour of the end that they are
      beyond, and the legend counts them
  --log
      a logarithmic scale of colours. Variances at or below 0 have no place on
      it: they have a pattern of their own, which the legend tells
";

/// How variances become colours.
#[derive(Debug, Clone, Copy, PartialEq, Default)]
pub struct Colours {
    /// The ends of the scale; without them the least and the largest variance.
    pub range: Option<(f64, f64)>,
    /// Whether the scale is logarithmic.
    pub log: bool,
}

impl Colours {
    /// Whether a value has a place on a scale.
    pub fn takes(self, value: f64) -> bool {
        value.is_finite() && (value > 0.0 || !self.log)
    }
}

/// Two numbers as in 0.01,2.5, the first below the second.
pub fn range(value: &OsString) -> Result<(f64, f64), Failure> {
    let number = |text: &str| text.trim().parse::<f64>().ok().filter(|number| number.is_finite());
    value
        .to_str()
        .and_then(|text| text.split_once(','))
        .and_then(|(low, high)| Some((number(low)?, number(high)?)))
        .filter(|(low, high)| low < high)
        .ok_or_else(|| {
            Failure::usage(format!(
                "--range needs two numbers, the first below the second, as in 0.01,2.5, not {}",
                value.to_string_lossy()
            ))
        })
}

/// Words to be shown, in one line.
pub fn text(name: &str, value: &OsString) -> Result<String, Failure> {
    match value.to_str().map(str::trim) {
        Some(text) if !text.is_empty() && !text.contains(char::is_control) => Ok(text.to_string()),
        _ => Err(Failure::usage(format!("{name} needs text, in one line"))),
    }
}

/// That each stands beside what shows it.
pub fn check(options: &Options) -> Result<(), Failure> {
    let Colours { range, log } = options.colours;
    if !options.draws() {
        for (name, given) in [("--range", range.is_some()), ("--log", log)] {
            if given {
                return Err(Failure::usage(format!("{name} needs --svg or --html")));
            }
        }
        for (name, given) in [("--title", &options.title), ("--unit", &options.unit)] {
            if given.is_some() && options.csv {
                return Err(Failure::usage(format!(
                    "{name} goes with --csv only where a map is drawn"
                )));
            }
        }
    }
    match range {
        Some((low, _)) if log && low <= 0.0 => Err(Failure::usage(format!(
            "--log needs a --range from above 0, not from {low:?}"
        ))),
        _ => Ok(()),
    }
}

/// The title that is asked for, or else another; `exact` where that is to be said.
pub fn title(options: &Options, other: String, exact: bool) -> String {
    match &options.title {
        Some(title) if exact => format!("{title} (exact variances)"),
        Some(title) => title.clone(),
        None => other,
    }
}

/// The unit of a variance, by that of a deviation.
pub fn squared(unit: &str) -> String {
    if unit.chars().all(char::is_alphabetic) {
        format!("{unit}\u{b2}")
    } else {
        format!("({unit})\u{b2}")
    }
}

#[cfg(test)]
mod tests {
    use super::{range, squared};

    #[test]
    fn ranges() {
        for (text, ends) in [
            ("0,1", Some((0.0, 1.0))),
            (" -1 , 2e3 ", Some((-1.0, 2e3))),
            ("1,1", None),
            ("2,1", None),
            ("1", None),
            ("1,", None),
            ("1,2,3", None),
            ("0,inf", None),
            ("nan,1", None),
        ] {
            assert_eq!(range(&text.into()).ok(), ends, "{text}");
        }
    }

    #[test]
    fn units() {
        assert_eq!((squared("m"), squared("m/s")), ("m\u{b2}".into(), "(m/s)\u{b2}".into()));
    }
}
