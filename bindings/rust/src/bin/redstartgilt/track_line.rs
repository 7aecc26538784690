//! A track on a map: a line through its cells in their order, and a wide one through those of the run of the largest
//! variance. Both are black and white, so that they stand out from any colour and pattern, and are told by form.

use crate::map::Map;
use crate::track::Track;
use crate::trail::{Frame, Point};

/// The track of a map.
pub struct TrackLine<'a> {
    map: &'a Map<'a>,
    track: &'a Track,
    frame: Frame,
}

/// Lines that a legend explains: whether they are of the run of the largest variance.
pub const SIGNS: [(bool, &str); 2] = [(false, "track"), (true, "run of largest variance")];

/// A line as elements, for cells of this side.
pub fn line(points: &[Point], side: f64, largest: bool) -> String {
    let mut path = String::new();
    for (number, (x, y)) in points.iter().enumerate() {
        let letter = if number == 0 { 'M' } else { 'L' };
        path.push_str(&format!("{letter}{x:.2} {y:.2}"));
    }
    if let [(x, y)] = points {
        // A line to where it begins is drawn as a point.
        path.push_str(&format!("L{x:.2} {y:.2}"));
    }
    let widths: &[(&str, &str, f64)] = if largest {
        &[
            ("largest", "#000000", 0.6),
            ("halo", "#ffffff", 0.4),
            ("track", "#000000", 0.14),
        ]
    } else {
        &[("halo", "#ffffff", 0.28), ("track", "#000000", 0.14)]
    };
    let lines = widths.iter().map(|(class, colour, width)| {
        format!(
            "<path class=\"{class}\" d=\"{path}\" fill=\"none\" stroke=\"{colour}\" stroke-width=\"{:.2}\" \
             stroke-linecap=\"round\" stroke-linejoin=\"round\"/>",
            width * side
        )
    });
    lines.collect::<String>() + "\n"
}

/// A line of a legend, in a box of this corner and size.
pub fn sign(largest: bool, (x, y): Point, (width, height): Point) -> String {
    let middle = y + height / 2.0;
    let room = 0.3 * height;
    line(&[(x + room, middle), (x + width - room, middle)], height, largest)
}

impl<'a> TrackLine<'a> {
    /// The track of a map that has one.
    pub fn new(map: &'a Map<'a>, frame: Frame) -> Option<Self> {
        let track = map.track?;
        Some(Self { map, track, frame })
    }

    /// The track as elements.
    pub fn drawn(&self) -> String {
        let middle = |cell: &usize| self.frame.middle(self.map.placed.place(*cell));
        let points = self.track.cells.iter().map(middle).collect::<Vec<_>>();
        let largest = self.track.largest();
        let run = &points[largest..largest + self.track.width];
        format!(
            "<g id=\"track\" pointer-events=\"none\" aria-hidden=\"true\">\n{}{}</g>\n",
            line(&points, self.frame.side, false),
            line(run, self.frame.side, true)
        )
    }
}
