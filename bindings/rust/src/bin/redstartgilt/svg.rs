//! A map as a picture.

use crate::grid::Grid;
use crate::map::{Fill, Map};
use crate::markup::{escaped, fill_value, pattern};
use crate::scale::{short, Scale};
use crate::track_line::{sign, TrackLine, SIGNS};
use crate::trail::{Frame, Trail};
use std::fmt::Write;

const MARGIN: usize = 24;
const TITLE_ROOM: usize = 88;
const LEGEND_ROOM: usize = 190;
const LEGEND_GAP: usize = 24;
const BAR_WIDTH: usize = 20;
const KEY_ROOM: usize = 22;
const LINE_ROOM: usize = 20;
/// About the width of a letter.
const LETTER_ROOM: usize = 7;
/// The same of the title.
const TITLE_LETTER_ROOM: usize = 10;
/// The least and the largest height of the text of marks.
const MARK_TEXTS: (f64, f64) = (7.0, 12.0);
/// That of a mark in the legend.
const KEY_TEXT: f64 = 10.0;

/// The map as an SVG document.
pub fn draw(map: &Map<'_>) -> String {
    let Grid { width, height } = map.placed.grid;
    let side = (720 / width.max(height)).clamp(4, 40);
    let (map_width, map_height) = (width * side, height * side);
    let bar_height = map_height.max(120);
    let subtitle = map.subtitle();
    let top = TITLE_ROOM + if subtitle.is_some() { LINE_ROOM } else { 0 };
    let frame = || Frame {
        left: MARGIN as f64,
        top: top as f64,
        side: side as f64,
        texts: MARK_TEXTS,
    };
    let trail = Trail::new(map, frame());
    let track_line = TrackLine::new(map, frame());
    let trail_room = trail.as_ref().map_or(0, |trail| {
        KEY_ROOM * trail.signs().len() + LINE_ROOM * trail.number_words().len()
    });
    let track_room = track_line.as_ref().map_or(0, |_| KEY_ROOM * SIGNS.len());
    let subtitle_room = subtitle.as_deref().map_or(0, room_of);
    let title_room = match map.titled {
        true => map.title.chars().count() * TITLE_LETTER_ROOM,
        false => 0,
    };
    let keys = keys(map);
    let key_room = keys.iter().map(|(_, words)| BAR_WIDTH + 8 + room_of(words)).max();
    let legend_room = LEGEND_GAP + key_room.unwrap_or(0).max(room_of(&map.scale_name()));
    let whole_width = (map_width + legend_room.max(LEGEND_ROOM))
        .max(subtitle_room)
        .max(title_room)
        + 2 * MARGIN;
    let whole_height = top + bar_height + 16 + KEY_ROOM * keys.len() + trail_room + track_room + MARGIN;
    let scale = map.scale();
    let title = escaped(map.title);
    let (cells, missing) = map.not_computed();
    let mut svg = String::new();
    let _ = write!(
        svg,
        "<?xml version=\"1.0\" encoding=\"UTF-8\"?>\n\
         <svg xmlns=\"http://www.w3.org/2000/svg\" width=\"{whole_width}\" height=\"{whole_height}\" \
         viewBox=\"0 0 {whole_width} {whole_height}\" font-family=\"sans-serif\" font-size=\"13\">\n\
         <title>{title}</title>\n\
         <rect width=\"{whole_width}\" height=\"{whole_height}\" fill=\"#ffffff\"/>\n\
         <text x=\"{MARGIN}\" y=\"30\" font-size=\"18\">{title}</text>\n\
         <text x=\"{MARGIN}\" y=\"52\">{missing} of {cells} cells not computed</text>\n"
    );
    if let Some(subtitle) = subtitle {
        let _ = writeln!(svg, "<text x=\"{MARGIN}\" y=\"74\">{}</text>", escaped(&subtitle));
    }
    if map.patterns().next().is_some() {
        svg.push_str("<defs>\n");
        svg.extend(map.patterns().map(|used| pattern(used, side)));
        svg.push_str("</defs>\n");
    }
    svg.push_str("<g stroke=\"#ffffff\" stroke-width=\"0.5\">\n");
    let beside = map.on_chain().into_iter().zip(map.runs_of_cells());
    for ((number, cell), (on_chain, runs)) in map.cells.iter().enumerate().zip(beside) {
        let (column, row) = map.placed.grid.place(number);
        let mut words = cell.variance().unwrap_or_else(|| cell.coverage().to_string());
        if let (Some(why), Some((_, on_chain))) = (map.why, on_chain) {
            let _ = write!(words, ", chain: {}", why.pairs_of(&on_chain));
        }
        if let Some(runs) = runs {
            let _ = write!(words, ", {runs}");
        }
        let _ = writeln!(
            svg,
            "<rect class=\"cell\" x=\"{}\" y=\"{}\" width=\"{side}\" height=\"{side}\" fill=\"{}\">\
             <title>column {}, row {}: {words}</title></rect>",
            MARGIN + column * side,
            top + row * side,
            fill_value(&map.fill(*cell, scale.as_ref())),
            column + 1,
            row + 1
        );
    }
    svg.push_str("</g>\n");
    if let Some(trail) = &trail {
        svg.push_str(&trail.drawn());
    }
    if let Some(track_line) = &track_line {
        svg.push_str(&track_line.drawn());
    }
    let corner = (MARGIN + map_width + LEGEND_GAP, top);
    let below = legend(&mut svg, map, scale.as_ref(), &keys, corner, bar_height);
    if let Some(trail) = &trail {
        trail_legend(&mut svg, trail, (corner.0, below));
    }
    if track_line.is_some() {
        track_legend(&mut svg, (corner.0, below));
    }
    if let Some(words) = map.checked.words() {
        // In the margin below all else.
        let _ = writeln!(
            svg,
            "<text x=\"{MARGIN}\" y=\"{}\">{words}</text>",
            whole_height - MARGIN / 3
        );
    }
    svg.push_str("</svg>\n");
    svg
}

/// About the width of words.
fn room_of(words: &str) -> usize {
    words.chars().count() * LETTER_ROOM
}

/// What stands below the scale: the ends that variances are beyond, and the patterns.
fn keys(map: &Map<'_>) -> Vec<(Fill, String)> {
    let patterns = map
        .patterns()
        .map(|used| (Fill::Pattern(used), used.words().to_string()));
    map.beyond().into_iter().chain(patterns).collect()
}

/// The scale with its numbers, and what stands below it; gives the place below them.
fn legend(
    svg: &mut String,
    map: &Map<'_>,
    scale: Option<&Scale>,
    keys: &[(Fill, String)],
    (left, top): (usize, usize),
    bar_height: usize,
) -> usize {
    let words_left = left + BAR_WIDTH + 8;
    if let Some(scale) = scale {
        let _ = writeln!(
            svg,
            "<text x=\"{left}\" y=\"{}\">{}</text>",
            top - 15,
            escaped(&map.scale_name())
        );
        svg.push_str("<defs><linearGradient id=\"scale\" x1=\"0\" y1=\"1\" x2=\"0\" y2=\"0\">\n");
        for (part, colour) in Scale::stops() {
            let _ = writeln!(svg, "<stop offset=\"{part}\" stop-color=\"{colour}\"/>");
        }
        let _ = writeln!(
            svg,
            "</linearGradient></defs>\n\
             <rect x=\"{left}\" y=\"{top}\" width=\"{BAR_WIDTH}\" height=\"{bar_height}\" fill=\"url(#scale)\"/>"
        );
        for (part, value) in scale.ticks() {
            let _ = writeln!(
                svg,
                "<text x=\"{words_left}\" y=\"{}\" dominant-baseline=\"middle\">{}</text>",
                top as f64 + bar_height as f64 * (1.0 - part),
                short(value)
            );
        }
    }
    let mut top = top + bar_height + 16;
    for (fill, words) in keys {
        let _ = writeln!(
            svg,
            "<rect x=\"{left}\" y=\"{top}\" width=\"{BAR_WIDTH}\" height=\"14\" fill=\"{}\" stroke=\"#3c4043\" \
             stroke-width=\"0.5\"/><text x=\"{words_left}\" y=\"{}\">{words}</text>",
            fill_value(fill),
            top + 12
        );
        top += KEY_ROOM;
    }
    top
}

/// The lines of the track.
fn track_legend(svg: &mut String, (left, top): (usize, usize)) {
    for (number, (largest, words)) in SIGNS.into_iter().enumerate() {
        let top = top + KEY_ROOM * number;
        let _ = writeln!(
            svg,
            "{}<text x=\"{}\" y=\"{}\">{words}</text>",
            sign(largest, (left as f64, top as f64), (BAR_WIDTH as f64, 14.0)),
            left + BAR_WIDTH + 8,
            top + 12
        );
    }
}

/// The signs of the chain, and what its numbers are.
fn trail_legend(svg: &mut String, trail: &Trail<'_>, (left, top): (usize, usize)) {
    let mut top = top;
    for sign in trail.signs() {
        let _ = writeln!(
            svg,
            "{}<text x=\"{}\" y=\"{}\">{}</text>",
            sign.drawn((left as f64, top as f64), (BAR_WIDTH as f64, 14.0), KEY_TEXT),
            left + BAR_WIDTH + 8,
            top + 12,
            sign.words
        );
        top += KEY_ROOM;
    }
    for words in trail.number_words() {
        let _ = writeln!(svg, "<text x=\"{left}\" y=\"{}\">{words}</text>", top + 12);
        top += LINE_ROOM;
    }
}
