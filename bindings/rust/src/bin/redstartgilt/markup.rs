//! What the picture and the page share: text and patterns.

use crate::map::{Fill, Pattern};

/// Text of a document, which may have no control characters.
pub fn escaped(text: &str) -> String {
    text.replace(char::is_control, "\u{fffd}")
        .replace('&', "&amp;")
        .replace('<', "&lt;")
        .replace('>', "&gt;")
        .replace('"', "&quot;")
}

/// The value of a `fill` attribute.
pub fn fill_value(fill: &Fill) -> String {
    match fill {
        Fill::Colour(colour) => colour.clone(),
        Fill::Pattern(pattern) => format!("url(#{})", pattern.id()),
    }
}

/// A pattern for cells of this side. Its step is at most the side, so that every cell shows it. Colours are attributes,
/// which the page's style takes the place of by the classes.
pub fn pattern(pattern: Pattern, side: usize) -> String {
    let id = pattern.id();
    let step = (side as f64 * 0.4).clamp(3.0, 9.0);
    let head = |turn: &str| {
        format!("<pattern id=\"{id}\" width=\"{step}\" height=\"{step}\" patternUnits=\"userSpaceOnUse\"{turn}>")
    };
    let ground =
        |fill: &str| format!("<rect class=\"{id}-ground\" width=\"{step}\" height=\"{step}\" fill=\"{fill}\"/>");
    let body = match pattern {
        Pattern::NotComputed => format!(
            "{}{}<rect class=\"{id}-mark\" width=\"{}\" height=\"{step}\" fill=\"#3c4043\"/>",
            head(" patternTransform=\"rotate(45)\""),
            ground("#ffffff"),
            step * 0.25
        ),
        Pattern::NotFinite => format!(
            "{}{}<path class=\"{id}-mark\" d=\"M{a} {a}L{b} {b}M{b} {a}L{a} {b}\" stroke=\"#b3261e\" \
             stroke-width=\"{}\" fill=\"none\"/>",
            head(""),
            ground("#ffffff"),
            step * 0.18,
            a = step * 0.2,
            b = step * 0.8
        ),
        Pattern::NotPositive => format!(
            "{}{}<rect class=\"{id}-mark\" y=\"{}\" width=\"{step}\" height=\"{}\" fill=\"#6a3d9a\"/>",
            head(""),
            ground("#ffffff"),
            step * 0.4,
            step * 0.25
        ),
        Pattern::Land => format!(
            "{}{}<circle class=\"{id}-mark\" cx=\"{half}\" cy=\"{half}\" r=\"{}\" fill=\"#8a7448\"/>",
            head(""),
            ground("#d8c39c"),
            step * 0.11,
            half = step * 0.5
        ),
    };
    format!("{body}</pattern>\n")
}
