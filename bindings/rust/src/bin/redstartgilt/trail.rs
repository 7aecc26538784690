//! A chain on a map: a mark on each of its cells with the numbers of the pairs that it is in, and an arrow for each step,
//! from the cell that gives way to the one that takes its place.
//!
//! Everything is black and white, so that it stands out from any colour and pattern, light or dark, and is told by form:
//! a mark is black in the requested pair, and has corners in the pair asked for.

use crate::grid::Grid;
use crate::map::Map;
use crate::why::{Coupling, OnChain, Why};
use std::collections::HashMap;

/// A place on the picture.
pub type Point = (f64, f64);

/// Where a map's cells are on a picture, and between which heights the text of marks is.
pub struct Frame {
    pub left: f64,
    pub top: f64,
    pub side: f64,
    pub texts: (f64, f64),
}

impl Frame {
    /// The middle of a cell by its column and row.
    pub fn middle(&self, (column, row): (usize, usize)) -> Point {
        (
            self.left + (column as f64 + 0.5) * self.side,
            self.top + (row as f64 + 0.5) * self.side,
        )
    }

    /// The height of text at which every mark is within its cell, where that can be.
    fn text<'a>(&self, marks: impl Iterator<Item = &'a Mark>) -> f64 {
        let widest = marks.map(Mark::width).fold(0.0, f64::max);
        (0.92 * self.side / widest).clamp(self.texts.0, self.texts.1)
    }
}

/// What a cell of the chain is marked with.
struct Mark {
    words: String,
    requested: bool,
    asked: bool,
}

impl Mark {
    fn new(words: String, requested: bool, asked: bool) -> Self {
        Self {
            words,
            requested,
            asked,
        }
    }

    /// With the numbers of all pairs that the cell is in, or of the first.
    fn of(on_chain: &OnChain, pairs: usize, first_only: bool) -> Self {
        let words = if first_only {
            (on_chain.first + 1).to_string()
        } else {
            on_chain.range('\u{2013}')
        };
        Self::new(words, on_chain.first == 0, on_chain.last + 1 == pairs)
    }

    /// Its width for text of height 1.
    fn width(&self) -> f64 {
        (0.6 * self.words.chars().count() as f64 + 0.6).max(1.4)
    }

    /// Half of its width and height.
    fn half(&self, text: f64) -> Point {
        (self.width() / 2.0 * text, 0.7 * text)
    }

    /// The mark as elements, its middle at a point.
    fn drawn(&self, (x, y): Point, text: f64) -> String {
        let (half_width, half_height) = self.half(text);
        let (fill, ink) = if self.requested {
            ("#000000", "#ffffff")
        } else {
            ("#ffffff", "#000000")
        };
        let rectangle = |class: &str, more: f64, paint: &str| {
            format!(
                "<rect class=\"{class}\" x=\"{:.2}\" y=\"{:.2}\" width=\"{:.2}\" height=\"{:.2}\" rx=\"{:.2}\" {paint}/>",
                x - half_width - more,
                y - half_height - more,
                2.0 * (half_width + more),
                2.0 * (half_height + more),
                if self.asked { 0.0 } else { half_height + more }
            )
        };
        let line = text * if self.asked { 0.18 } else { 0.1 };
        format!(
            "{}{}<text x=\"{x:.2}\" y=\"{:.2}\" font-size=\"{text:.2}\" font-weight=\"bold\" text-anchor=\"middle\" \
             fill=\"{ink}\">{}</text>\n",
            rectangle("halo", line, "fill=\"#ffffff\""),
            rectangle(
                "mark",
                0.0,
                &format!("fill=\"{fill}\" stroke=\"#000000\" stroke-width=\"{line:.2}\"")
            ),
            y + 0.36 * text,
            self.words
        )
    }
}

/// A sign that a legend explains.
pub struct Sign {
    /// None for a step.
    mark: Option<Mark>,
    pub words: &'static str,
}

impl Sign {
    /// The sign as elements in a box of this corner and size.
    pub fn drawn(&self, (x, y): Point, (width, height): Point, text: f64) -> String {
        match &self.mark {
            Some(mark) => mark.drawn((x + width / 2.0, y + height / 2.0), text),
            None => {
                let low = y + 0.7 * height;
                Curve::new((x, low), (x + width, low), 0.7 * height).arrow(text)
            }
        }
    }
}

/// In how many parts a curve is looked at.
const PARTS: usize = 60;

/// How many bends of a curve are tried on each side.
const BENDS: usize = 24;

/// Up to so many steps a curve looks for a way beside the marks of other cells; with more there is hardly one.
const SPARSE: usize = 200;

fn inside(point: Point, middle: Point, half: Point) -> bool {
    (point.0 - middle.0).abs() <= half.0 && (point.1 - middle.1).abs() <= half.1
}

/// A curve by its ends and the point that it bends to.
#[derive(Clone, Copy)]
struct Curve {
    from: Point,
    bend: Point,
    to: Point,
}

impl Curve {
    /// From one point to another, bent to the left of the way by so much, or to the right.
    fn new(from: Point, to: Point, bend: f64) -> Self {
        let (x, y) = (to.0 - from.0, to.1 - from.1);
        let length = x.hypot(y);
        let middle = ((from.0 + to.0) / 2.0, (from.1 + to.1) / 2.0);
        Self {
            from,
            bend: (middle.0 + y / length * bend, middle.1 - x / length * bend),
            to,
        }
    }

    fn at(&self, part: f64) -> Point {
        let rest = 1.0 - part;
        let along = |from: f64, bend: f64, to: f64| rest * rest * from + 2.0 * rest * part * bend + part * part * to;
        (
            along(self.from.0, self.bend.0, self.to.0),
            along(self.from.1, self.bend.1, self.to.1),
        )
    }

    /// The part of it that is between the marks at its ends, of these half sides.
    fn between(&self, first: Point, last: Point) -> Option<Curve> {
        let part = |number: usize| number as f64 / PARTS as f64;
        let free = (0..=PARTS).map(part).filter(|part| {
            let point = self.at(*part);
            !inside(point, self.from, first) && !inside(point, self.to, last)
        });
        let (start, end) = free.fold((1.0_f64, 0.0_f64), |(start, end), part| {
            (start.min(part), end.max(part))
        });
        (start < end).then(|| {
            let bend = |from: f64, bend: f64, to: f64| {
                (1.0 - start) * (1.0 - end) * from
                    + (start * (1.0 - end) + end * (1.0 - start)) * bend
                    + start * end * to
            };
            Curve {
                from: self.at(start),
                bend: (
                    bend(self.from.0, self.bend.0, self.to.0),
                    bend(self.from.1, self.bend.1, self.to.1),
                ),
                to: self.at(end),
            }
        })
    }

    /// About its length.
    fn length(&self) -> f64 {
        let of = |one: Point, other: Point| (one.0 - other.0).hypot(one.1 - other.1);
        (of(self.from, self.bend) + of(self.bend, self.to) + of(self.from, self.to)) / 2.0
    }

    /// The curve as elements, with a head at its end.
    fn arrow(&self, text: f64) -> String {
        let head = 0.62 * text;
        let (x, y) = (self.to.0 - self.bend.0, self.to.1 - self.bend.1);
        let length = x.hypot(y).max(1e-9);
        let (x, y) = (x / length * head, y / length * head);
        let base = (self.to.0 - x, self.to.1 - y);
        let line = format!(
            "M{:.2} {:.2}Q{:.2} {:.2} {:.2} {:.2}",
            self.from.0, self.from.1, self.bend.0, self.bend.1, base.0, base.1
        );
        let point = format!(
            "M{:.2} {:.2}L{:.2} {:.2}L{:.2} {:.2}Z",
            self.to.0,
            self.to.1,
            base.0 - 0.55 * y,
            base.1 + 0.55 * x,
            base.0 + 0.55 * y,
            base.1 - 0.55 * x
        );
        let halo = 0.12 * text;
        let width = 0.16 * text;
        format!(
            "<path class=\"halo\" d=\"{line}\" fill=\"none\" stroke=\"#ffffff\" stroke-width=\"{:.2}\"/>\
             <path class=\"halo\" d=\"{point}\" fill=\"#ffffff\" stroke=\"#ffffff\" stroke-width=\"{:.2}\"/>\
             <path class=\"step\" d=\"{line}\" fill=\"none\" stroke=\"#000000\" stroke-width=\"{width:.2}\"/>\
             <path class=\"head\" d=\"{point}\" fill=\"#000000\"/>\n",
            width + 2.0 * halo,
            2.0 * halo
        )
    }
}

/// The chain of a map, with its marks.
pub struct Trail<'a> {
    map: &'a Map<'a>,
    why: &'a Why,
    frame: Frame,
    /// The mark of each cell of the chain.
    marks: Vec<(usize, Mark)>,
    /// Whether they have the number of the first pair alone.
    first_only: bool,
    text: f64,
}

impl<'a> Trail<'a> {
    /// The chain of a map that has one. Where marks with all numbers would lie over one another, they have the first.
    pub fn new(map: &'a Map<'a>, frame: Frame) -> Option<Self> {
        let why = map.chain()?;
        let with = |frame: Frame, first_only: bool| {
            let cells = why.cells().into_iter();
            let marks = cells.map(|on_chain| (on_chain.cell, Mark::of(&on_chain, why.pairs.len(), first_only)));
            let marks = marks.collect::<Vec<_>>();
            let text = frame.text(marks.iter().map(|(_, mark)| mark));
            Trail {
                map,
                why,
                frame,
                marks,
                first_only,
                text,
            }
        };
        let full = with(frame, false);
        Some(if full.overlapping() {
            with(full.frame, true)
        } else {
            full
        })
    }

    /// What the numbers on cells are, in two lines.
    pub fn number_words(&self) -> [&'static str; 2] {
        if self.first_only {
            ["A cell has the number of its", "first pair in the chain."]
        } else {
            ["A cell has the numbers of its", "pairs in the chain."]
        }
    }

    /// The signs of a legend.
    pub fn signs(&self) -> Vec<Sign> {
        let count = self.why.pairs.len();
        let mark = |number: usize| Mark::new(number.to_string(), number == 1, number == count);
        let signs = [
            (true, Some(1), "requested pair"),
            (count > 2, Some(2), "pair between"),
            (count > 1, Some(count), "pair asked for"),
            (count > 1, None, "step to the next pair"),
        ];
        let used = signs.into_iter().filter(|(used, _, _)| *used);
        used.map(|(_, number, words)| Sign {
            mark: number.map(mark),
            words,
        })
        .collect()
    }

    fn middle(&self, cell: usize) -> Point {
        self.frame.middle(self.map.placed.place(cell))
    }

    /// The half sides of the mark on a cell.
    fn half(&self, cell: usize) -> Point {
        let mark = self.marks.iter().find(|(one, _)| *one == cell);
        let (_, mark) = mark.expect("a step is between cells of the chain");
        mark.half(self.text)
    }

    /// Whether two marks lie over one another.
    fn overlapping(&self) -> bool {
        let boxes = self
            .marks
            .iter()
            .map(|(cell, mark)| (self.middle(*cell), mark.half(self.text)));
        let boxes = boxes.collect::<Vec<_>>();
        boxes.iter().enumerate().any(|(number, (one, half))| {
            boxes[..number].iter().any(|(other, other_half)| {
                (one.0 - other.0).abs() < half.0 + other_half.0 && (one.1 - other.1).abs() < half.1 + other_half.1
            })
        })
    }

    /// Whether a point is on the map.
    fn on_map(&self, (x, y): Point) -> bool {
        let Grid { width, height } = self.map.placed.grid;
        let (x, y) = (x - self.frame.left, y - self.frame.top);
        x >= 0.0 && y >= 0.0 && x <= width as f64 * self.frame.side && y <= height as f64 * self.frame.side
    }

    /// The chain as elements.
    pub fn drawn(&self) -> String {
        let mut drawn =
            String::from("<g id=\"chain\" pointer-events=\"none\" aria-hidden=\"true\" font-family=\"sans-serif\">\n");
        let mut ways = HashMap::new();
        for step in &self.why.couplings {
            // Both cells of a pair may go the same way; then on its two sides.
            let other = ways.get(&(step.from, step.to)).map(|way: &f64| -way);
            if let Some((way, curve)) = self.curve(step, other) {
                ways.insert((step.from, step.to), way);
                drawn.push_str(&curve.arrow(self.text));
            }
        }
        for (cell, mark) in &self.marks {
            drawn.push_str(&mark.drawn(self.middle(*cell), self.text));
        }
        drawn.push_str("</g>\n");
        drawn
    }

    /// The curve of a step between its marks, and the side to which it bends: the one given, or the better of the two. It
    /// is long enough to be seen and, where that can be, on the map and beside the marks of other cells; and then as
    /// straight as can be.
    fn curve(&self, step: &Coupling, side: Option<f64>) -> Option<(f64, Curve)> {
        // A little room, so that a head does not touch its mark.
        let room = |cell: usize| {
            let half = self.half(cell);
            (half.0 + 0.3 * self.text, half.1 + 0.3 * self.text)
        };
        let (from, to) = (self.middle(step.from), self.middle(step.to));
        let (first, last) = (room(step.from), room(step.to));
        let far = (to.0 - from.0).hypot(to.1 - from.1);
        let least = (0.16 * far).min(1.5 * self.frame.side);
        let others = self.marks_between(step, from, to);
        let sides = side.map_or(vec![1.0, -1.0], |side| vec![side]);
        let bends = (0..BENDS).flat_map(|more| sides.iter().map(move |side| (more, *side)));
        let curves = bends.filter_map(|(more, side)| {
            let bend = side * (least + 0.2 * self.text * more as f64);
            let curve = Curve::new(from, to, bend).between(first, last)?;
            let points = (0..=PARTS).map(|number| curve.at(number as f64 / PARTS as f64));
            let (mut outside, mut hidden) = (false, 0);
            for point in points {
                outside |= !self.on_map(point);
                hidden += others
                    .iter()
                    .filter(|(middle, half)| inside(point, *middle, *half))
                    .count();
            }
            // By how many tenths of the text's height it is too short.
            let short = (10.0 * (1.8 - curve.length() / self.text)).max(0.0).ceil() as usize;
            Some(((short, outside, hidden, more), side, curve))
        });
        let best = curves.min_by_key(|(cost, _, _)| *cost);
        best.map(|(_, side, curve)| (side, curve))
    }

    /// The marks of other cells that a curve may meet, with their half sides.
    fn marks_between(&self, step: &Coupling, from: Point, to: Point) -> Vec<(Point, Point)> {
        if self.why.couplings.len() > SPARSE {
            return Vec::new();
        }
        let reach = 3.0 * self.frame.side;
        let near = |one: f64, other: f64, at: f64| at > one.min(other) - reach && at < one.max(other) + reach;
        let others = self
            .marks
            .iter()
            .filter(|(cell, _)| *cell != step.from && *cell != step.to);
        let others = others.map(|(cell, mark)| (self.middle(*cell), mark.half(self.text)));
        others
            .filter(|(middle, _)| near(from.0, to.0, middle.0) && near(from.1, to.1, middle.1))
            .collect()
    }
}

#[cfg(test)]
mod tests {
    use super::{inside, Curve};

    /// The part between two marks begins and ends at their edges, and is bent the same way.
    #[test]
    fn a_curve_between_marks() {
        let curve = Curve::new((0.0, 0.0), (100.0, 0.0), 20.0);
        assert_eq!(curve.at(0.5), (50.0, -10.0));
        let part = curve.between((10.0, 10.0), (20.0, 10.0)).unwrap();
        assert!((part.from.0 - 10.0).abs() < 2.0 && (part.to.0 - 80.0).abs() < 2.0);
        let highest = part.at(0.5);
        assert!(highest.1 < part.from.1 && highest.1 < part.to.1);
        assert!(!inside(part.from, (0.0, 0.0), (10.0, 10.0)) && !inside(part.to, (100.0, 0.0), (20.0, 10.0)));
        // Marks that meet leave nothing of a straight line.
        let line = Curve::new((0.0, 0.0), (100.0, 0.0), 0.0);
        assert!(line.between((60.0, 10.0), (60.0, 10.0)).is_none());
        assert!(part.arrow(10.0).contains("class=\"head\""));
    }
}
