//! A map as one page that needs nothing but itself.
//!
//! The numbers stand in the document, on the map's cells and in a table; the script only moves between cells and shows
//! what stands there. So the page can be read without the script, without colour and without a pointer.

use crate::counted::counted;
use crate::grid::Grid;
use crate::map::{deviation, Fill, Map};
use crate::markup::{escaped, fill_value, pattern};
use crate::scale::{short, Scale};
use crate::track_line::{sign, TrackLine, SIGNS};
use crate::trail::{Frame, Trail};
use redstartgilt::count_and_least;
use std::fmt::Write;

const STYLE: &str = include_str!("page.css");
/// Beside a logarithmic scale.
const LOG_STYLE: &str = "\
.not-positive-ground {
    fill: var(--hatch-ground);
}
.not-positive-mark {
    fill: var(--fault-mark);
}
";
const SCRIPT: &str = include_str!("page.js");

/// The side of a cell in the map's own units.
const SIDE: usize = 20;
/// The least and the largest side of a cell on the screen.
const SCREEN_SIDES: (usize, usize) = (6, 40);
/// The longer side of a map on the screen, where cells of the least side allow it.
const SCREEN_MAP: usize = 860;
/// The least height of the text of marks on a large screen, and the largest in the map's own units.
const MARK_TEXTS: (f64, f64) = (8.0, 8.0);

/// Nothing is fetched: only the page's own style and script are used.
const POLICY: &str = "default-src 'none'; style-src 'unsafe-inline'; script-src 'unsafe-inline'";

/// The map as an HTML document.
pub fn page(map: &Map<'_>) -> String {
    let title = escaped(map.title);
    let (cells, missing) = map.not_computed();
    let log_style = if map.colours.log { LOG_STYLE } else { "" };
    let mut html = format!(
        "<!DOCTYPE html>\n<html lang=\"en\">\n<head>\n<meta charset=\"utf-8\">\n\
         <meta name=\"viewport\" content=\"width=device-width, initial-scale=1\">\n\
         <meta http-equiv=\"Content-Security-Policy\" content=\"{POLICY}\">\n\
         <title>{title}</title>\n<style>\n{STYLE}{log_style}</style>\n</head>\n<body>\n<main>\n\
         <header>\n<h1>{title}</h1>\n<p id=\"summary\">{} of {cells} cells computed, <strong>{missing} not \
         computed</strong>.</p>\n",
        cells - missing
    );
    if let Some(words) = map.checked.words() {
        let _ = writeln!(html, "<p id=\"checked\">The factor is {words}.</p>");
    }
    html.push_str("</header>\n");
    let scale = map.scale();
    drawing(&mut html, map, scale.as_ref());
    readout(&mut html, map);
    legend(&mut html, map, scale.as_ref());
    diagnosis(&mut html, map);
    why(&mut html, map);
    runs(&mut html, map);
    table(&mut html, map);
    let _ = write!(html, "</main>\n<script>\n{SCRIPT}</script>\n</body>\n</html>\n");
    html
}

/// The number of the factor's cell at each cell of the grid, from 1; none on land.
fn numbers(map: &Map<'_>) -> Vec<Option<usize>> {
    let mut found = vec![None; map.cells.len()];
    for (number, place) in (1..).zip(&map.placed.cells) {
        found[*place] = Some(number);
    }
    found
}

/// The largest side of a cell on the screen.
fn screen_side(grid: Grid) -> usize {
    let (least, largest) = SCREEN_SIDES;
    (SCREEN_MAP / grid.width.max(grid.height)).clamp(least, largest)
}

/// The map's own units.
fn frame(map: &Map<'_>) -> Frame {
    let least_text = MARK_TEXTS.0 * SIDE as f64 / screen_side(map.placed.grid) as f64;
    Frame {
        left: 0.0,
        top: 0.0,
        side: SIDE as f64,
        texts: (least_text, MARK_TEXTS.1.max(least_text)),
    }
}

fn drawing(html: &mut String, map: &Map<'_>, scale: Option<&Scale>) {
    let Grid { width, height } = map.placed.grid;
    let _ = write!(
        html,
        "<section id=\"chart\" aria-label=\"Map\">\n<div id=\"frame\">\n\
         <svg id=\"map\" viewBox=\"0 0 {} {}\" style=\"min-width: {}px; max-width: {}px\" data-columns=\"{width}\" \
         data-side=\"{SIDE}\" tabindex=\"0\" role=\"application\" aria-roledescription=\"map\" \
         aria-label=\"Map of variances, {width} columns and {height} rows\" aria-describedby=\"keys\">\n<defs>\n",
        width * SIDE,
        height * SIDE,
        width * SCREEN_SIDES.0,
        width * screen_side(map.placed.grid)
    );
    html.extend(map.patterns().map(|used| pattern(used, SIDE)));
    html.push_str("</defs>\n<g id=\"cells\">\n");
    let beside = pairs_of_cells(map).into_iter().zip(map.runs_of_cells());
    for (((place, cell), number), (pairs, runs)) in map.cells.iter().enumerate().zip(numbers(map)).zip(beside) {
        let (column, row) = map.placed.grid.place(place);
        let _ = write!(
            html,
            "<rect class=\"cell\" x=\"{}\" y=\"{}\" width=\"{SIDE}\" height=\"{SIDE}\" fill=\"{}\" data-coverage=\"{}\"",
            column * SIDE,
            row * SIDE,
            fill_value(&map.fill(*cell, scale)),
            cell.coverage()
        );
        let of_cell = [
            ("cell", number.map(|number| number.to_string())),
            ("variance", cell.variance()),
            ("deviation", cell.deviation()),
            ("chain", pairs.as_ref().map(|(_, words)| words.clone())),
            ("chain-order", pairs.map(|(order, _)| order.to_string())),
            ("runs", runs),
        ];
        for (name, value) in of_cell {
            if let Some(value) = value {
                let _ = write!(html, " data-{name}=\"{value}\"");
            }
        }
        html.push_str("/>\n");
    }
    if let Some(trail) = Trail::new(map, frame(map)) {
        html.push_str(&trail.drawn());
    }
    if let Some(track_line) = TrackLine::new(map, frame(map)) {
        html.push_str(&track_line.drawn());
    }
    for cursor in ["pointed", "selected"] {
        let _ = writeln!(
            html,
            "<g id=\"{cursor}\" visibility=\"hidden\"><rect class=\"outer\" width=\"{SIDE}\" height=\"{SIDE}\"/>\
             <rect class=\"inner\" width=\"{SIDE}\" height=\"{SIDE}\"/></g>"
        );
    }
    html.push_str(
        "</g>\n</svg>\n</div>\n\
         <p id=\"keys\">Point at a cell, or move with the arrow keys. Home and End go to the ends of the row, with \
         Control to the first and the last cell.</p>\n",
    );
    let buttons = [
        (map.not_computed().1 > 0, "next", "Next cell not computed"),
        (map.chain().is_some(), "next-on-chain", "Next cell of the chain"),
    ];
    if buttons.iter().any(|(there, _, _)| *there) {
        html.push_str("<p>");
        for (_, id, words) in buttons.iter().filter(|(there, _, _)| *there) {
            let _ = writeln!(html, "<button id=\"{id}\" type=\"button\">{words}</button>");
        }
        html.push_str("</p>\n");
    }
    html.push_str(
        "<noscript><p>Without scripts the cells are in the table below.</p></noscript>\n</section>\n\
         <p id=\"spoken\" class=\"unseen\" role=\"status\" aria-live=\"polite\"></p>\n",
    );
}

/// The pairs of the chain that each cell of the grid is in, in words, after the cell's number on the chain.
fn pairs_of_cells(map: &Map<'_>) -> Vec<Option<(usize, String)>> {
    let cells = map.on_chain().into_iter();
    cells
        .map(|on_chain| {
            let (order, on_chain) = on_chain?;
            Some((order, map.chain()?.pairs_of(&on_chain)))
        })
        .collect()
}

/// What is known of the cell that is pointed at or selected.
fn readout(html: &mut String, map: &Map<'_>) {
    html.push_str(
        "<section id=\"readout\" aria-labelledby=\"readout-title\">\n<h2 id=\"readout-title\">Cell</h2>\n<dl>\n",
    );
    let mut lines = vec![
        ("place", "place".to_string()),
        ("coverage", "coverage".to_string()),
        ("variance", map.variance_name()),
        ("deviation", map.deviation_name()),
    ];
    if map.chain().is_some() {
        lines.push(("on-chain", "chain".to_string()));
    }
    if map.track.is_some() {
        lines.push(("runs", "run from here".to_string()));
    }
    for (id, name) in lines {
        let _ = writeln!(
            html,
            "<div><dt>{}</dt><dd id=\"{id}\">\u{2013}</dd></div>",
            escaped(&name)
        );
    }
    html.push_str("</dl>\n</section>\n");
}

fn swatch(fill: &Fill) -> String {
    drawn_swatch(&format!(
        "<rect width=\"32\" height=\"20\" fill=\"{}\"/>",
        fill_value(fill)
    ))
}

fn drawn_swatch(drawn: &str) -> String {
    format!("<svg class=\"swatch\" viewBox=\"0 0 32 20\" aria-hidden=\"true\">{drawn}</svg>")
}

/// Colours with their numbers, the largest first, then the patterns.
fn legend(html: &mut String, map: &Map<'_>, scale: Option<&Scale>) {
    html.push_str("<section id=\"legend\" aria-labelledby=\"legend-title\">\n<h2 id=\"legend-title\">Legend</h2>\n");
    if let Some(scale) = scale {
        let _ = writeln!(
            html,
            "<table>\n<thead><tr><th scope=\"col\">shade</th><th scope=\"col\">{}</th><th scope=\"col\">{}</th></tr>\
             </thead>\n<tbody>",
            escaped(&map.variance_name()),
            escaped(&map.deviation_name())
        );
        for (_, value) in scale.ticks().into_iter().rev() {
            let _ = writeln!(
                html,
                "<tr><td>{}</td><td>{}</td><td>{}</td></tr>",
                swatch(&Fill::Colour(scale.colour(value))),
                short(value),
                if value >= 0.0 {
                    deviation(value)
                } else {
                    "none".to_string()
                }
            );
        }
        html.push_str("</tbody>\n</table>\n");
        if scale.ticks().len() > 1 {
            let kind = if map.colours.log {
                " The scale is logarithmic."
            } else {
                ""
            };
            let _ = writeln!(html, "<p>The lighter, the larger.{kind}</p>");
        }
    }
    let mut keys = map.beyond();
    keys.extend(map.patterns().map(|used| {
        let count = counted(map.pattern_count(used), "cell", "cells");
        (Fill::Pattern(used), format!("{}: {count}", used.words()))
    }));
    if !keys.is_empty() {
        html.push_str("<ul>\n");
        for (fill, words) in keys {
            let _ = writeln!(html, "<li>{} {words}</li>", swatch(&fill));
        }
        html.push_str("</ul>\n");
    }
    chain_legend(html, map);
    track_legend(html, map);
    html.push_str("</section>\n");
}

/// The signs of the chain, and what its numbers are.
fn chain_legend(html: &mut String, map: &Map<'_>) {
    let Some(trail) = Trail::new(map, frame(map)) else {
        return;
    };
    html.push_str("<ul id=\"chain-legend\">\n");
    for sign in trail.signs() {
        let drawn = sign.drawn((4.0, 2.0), (24.0, 16.0), 11.0);
        let _ = writeln!(html, "<li>{} {}</li>", drawn_swatch(drawn.trim_end()), sign.words);
    }
    let _ = writeln!(html, "</ul>\n<p>{}</p>", trail.number_words().join(" "));
}

/// The lines of the track.
fn track_legend(html: &mut String, map: &Map<'_>) {
    if map.track.is_none() {
        return;
    }
    html.push_str("<ul id=\"track-legend\">\n");
    for (largest, words) in SIGNS {
        let drawn = sign(largest, (0.0, 0.0), (32.0, 20.0));
        let _ = writeln!(html, "<li>{} {words}</li>", drawn_swatch(drawn.trim_end()));
    }
    html.push_str("</ul>\n");
}

/// The runs of the track, the largest named.
fn runs(html: &mut String, map: &Map<'_>) {
    let Some(track) = map.track else {
        return;
    };
    let _ = writeln!(
        html,
        "<section id=\"track-runs\" aria-labelledby=\"track-title\">\n<h2 id=\"track-title\">Track</h2>\n<p>{}.</p>\n\
         <details>\n<summary>All runs as a table</summary>\n<table>\n<thead><tr><th scope=\"col\">run</th>\
         <th scope=\"col\">first cell</th><th scope=\"col\">last cell</th><th scope=\"col\">{}</th></tr></thead>\n<tbody>",
        track.summary(),
        escaped(&map.variance_name())
    );
    for (run, variance) in track.variances.iter().enumerate() {
        let (first, last) = track.ends(run);
        let _ = writeln!(
            html,
            "<tr><th scope=\"row\">{}</th><td>{}</td><td>{}</td><td>{variance}</td></tr>",
            run + 1,
            first + 1,
            last + 1
        );
    }
    html.push_str("</tbody>\n</table>\n</details>\n</section>\n");
}

/// The answer for the pair that is asked about.
fn why(html: &mut String, map: &Map<'_>) {
    let Some(why) = map.why else {
        return;
    };
    let _ = writeln!(
        html,
        "<section id=\"why\" aria-labelledby=\"why-title\">\n<h2 id=\"why-title\">{}</h2>\n<p>{}</p>\n<p>{}</p>",
        why.title(),
        why.answer(),
        why.numbering()
    );
    if !why.couplings.is_empty() {
        html.push_str("<ol>\n");
        for sentence in why.sentences() {
            let _ = writeln!(html, "<li>{sentence}</li>");
        }
        html.push_str("</ol>\n");
    }
    html.push_str("</section>\n");
}

/// Status and counts of the answer, and of the cells.
fn diagnosis(html: &mut String, map: &Map<'_>) {
    let diagnostics = map.diagnostics;
    let (cells, missing) = map.not_computed();
    let variances = map.variances().collect::<Vec<_>>();
    let least = count_and_least(&variances);
    let mut lines = vec![
        ("status", format!("{:?}", diagnostics.status)),
        ("pairs requested", diagnostics.requested_pairs.to_string()),
        ("pairs computed", diagnostics.closure_pairs.to_string()),
        ("pairs in the factor", diagnostics.factor_pairs.to_string()),
        ("limit of pairs", diagnostics.closure_limit.to_string()),
        ("computed / in the factor", short(diagnostics.closure_over_factor)),
        ("cells computed", (cells - missing).to_string()),
        ("cells not computed", missing.to_string()),
    ];
    if !variances.is_empty() {
        lines.push(("variances below 0", least.num_negative.to_string()));
        lines.push(("least variance", format!("{:?}", least.min_value)));
    }
    html.push_str(
        "<section id=\"diagnosis\" aria-labelledby=\"diagnosis-title\">\n\
         <h2 id=\"diagnosis-title\">Diagnosis</h2>\n<dl>\n",
    );
    for (name, value) in lines {
        let _ = writeln!(html, "<div><dt>{name}</dt><dd>{value}</dd></div>");
    }
    html.push_str("</dl>\n</section>\n");
}

/// Every cell that is not land.
fn table(html: &mut String, map: &Map<'_>) {
    let _ = writeln!(
        html,
        "<details id=\"all\">\n<summary>All cells as a table</summary>\n<table>\n<thead><tr><th scope=\"col\">cell</th>\
         <th scope=\"col\">column</th><th scope=\"col\">row</th><th scope=\"col\">coverage</th>\
         <th scope=\"col\">{}</th><th scope=\"col\">{}</th>{}</tr></thead>\n<tbody>",
        escaped(&map.variance_name()),
        escaped(&map.deviation_name()),
        if map.chain().is_some() {
            "<th scope=\"col\">chain</th>"
        } else {
            ""
        }
    );
    let pairs = pairs_of_cells(map);
    for (number, place) in (1..).zip(&map.placed.cells) {
        let (cell, pairs) = (map.cells[*place], &pairs[*place]);
        let pairs = match (map.chain(), pairs) {
            (Some(_), Some((_, words))) => format!("<td>{words}</td>"),
            (Some(_), None) => "<td>none</td>".to_string(),
            (None, _) => String::new(),
        };
        let (column, row) = map.placed.grid.place(*place);
        let _ = writeln!(
            html,
            "<tr><th scope=\"row\">{number}</th><td>{}</td><td>{}</td><td>{}</td><td>{}</td><td>{}</td>{pairs}</tr>",
            column + 1,
            row + 1,
            cell.coverage(),
            cell.variance().as_deref().unwrap_or("none"),
            cell.deviation().as_deref().unwrap_or("none")
        );
    }
    html.push_str("</tbody>\n</table>\n</details>\n");
}
