//! Cells of a grid with their variances: what is drawn.

use crate::checked::Checked;
use crate::colours::{squared, Colours};
use crate::counted::counted;
use crate::grid::Grid;
use crate::scale::{short, Scale};
use crate::track::Track;
use crate::why::{OnChain, Why};
use redstartgilt::SelectedInverseDiagnostics;

/// What a cell of the grid shows.
#[derive(Debug, Clone, Copy, PartialEq)]
pub enum Cell {
    Variance(f64),
    /// Not among the entries that were computed.
    NotComputed,
    Land,
}

/// Where the cells of a factor are.
pub struct Placed {
    pub grid: Grid,
    /// The grid's cell of each, none twice.
    pub cells: Vec<usize>,
}

impl Placed {
    /// Column and row of a cell of the factor.
    pub fn place(&self, cell: usize) -> (usize, usize) {
        self.grid.place(self.cells[cell])
    }

    /// What each cell of the grid shows, by the variances of the factor's cells. Where none of these is, it is land,
    /// whatever was computed.
    pub fn map_cells(&self, variances: impl Iterator<Item = Option<f64>>) -> Vec<Cell> {
        let mut found = vec![Cell::Land; self.grid.width * self.grid.height];
        for (place, variance) in self.cells.iter().zip(variances) {
            found[*place] = variance.map_or(Cell::NotComputed, Cell::Variance);
        }
        found
    }
}

/// A map of variances.
pub struct Map<'a> {
    pub title: &'a str,
    /// Whether the title is one that was asked for, for which a picture has room.
    pub titled: bool,
    /// The unit of a deviation, where it is known; that of a variance is its square.
    pub unit: Option<&'a str>,
    /// One for each cell of the grid, row by row from the top left.
    pub cells: &'a [Cell],
    pub placed: &'a Placed,
    pub colours: Colours,
    /// The chain to a pair, where it is asked for.
    pub why: Option<&'a Why>,
    /// The track, where there is one.
    pub track: Option<&'a Track>,
    pub diagnostics: &'a SelectedInverseDiagnostics,
    pub checked: Checked,
}

/// How a cell is filled.
#[derive(Debug, Clone, PartialEq)]
pub enum Fill {
    /// The colour of a finite variance.
    Colour(String),
    Pattern(Pattern),
}

/// A cell whose variance has no place on the scale is told by a pattern, so that it can be told without colour.
#[derive(Debug, Clone, Copy, PartialEq, Eq)]
pub enum Pattern {
    NotComputed,
    NotFinite,
    /// On a logarithmic scale.
    NotPositive,
    Land,
}

impl Pattern {
    pub const ALL: [Pattern; 4] = [
        Pattern::NotComputed,
        Pattern::NotFinite,
        Pattern::NotPositive,
        Pattern::Land,
    ];

    /// The name in a document.
    pub fn id(self) -> &'static str {
        match self {
            Pattern::NotComputed => "not-computed",
            Pattern::NotFinite => "not-finite",
            Pattern::NotPositive => "not-positive",
            Pattern::Land => "land",
        }
    }

    /// The words of a legend.
    pub fn words(self) -> &'static str {
        match self {
            Pattern::NotComputed => "not computed",
            Pattern::NotFinite => "not finite",
            Pattern::NotPositive => "at or below 0",
            Pattern::Land => "land",
        }
    }
}

impl Cell {
    pub fn is_land(self) -> bool {
        self == Cell::Land
    }

    /// The pattern of a cell whose variance has no colour.
    pub fn pattern(self, colours: Colours) -> Option<Pattern> {
        match self {
            Cell::Variance(value) if colours.takes(value) => None,
            Cell::Variance(value) if value.is_finite() => Some(Pattern::NotPositive),
            Cell::Variance(_) => Some(Pattern::NotFinite),
            Cell::NotComputed => Some(Pattern::NotComputed),
            Cell::Land => Some(Pattern::Land),
        }
    }

    /// The variance with all its digits.
    pub fn variance(self) -> Option<String> {
        match self {
            Cell::Variance(value) => Some(format!("{value:?}")),
            _ => None,
        }
    }

    /// The square root of the variance, in short; none of a variance below 0 or not finite.
    pub fn deviation(self) -> Option<String> {
        match self {
            Cell::Variance(value) if value >= 0.0 && value.is_finite() => Some(deviation(value)),
            _ => None,
        }
    }

    /// Whether the cell was computed, in words.
    pub fn coverage(self) -> &'static str {
        match self {
            Cell::Variance(_) => "computed",
            Cell::NotComputed => "not computed",
            Cell::Land => "land",
        }
    }
}

/// The deviation of a variance of at least 0, in short.
pub fn deviation(variance: f64) -> String {
    // The root of -0.0 is -0.0; the sum is 0.0.
    short(variance.sqrt() + 0.0)
}

impl Map<'_> {
    pub fn count(&self, counted: impl Fn(Cell) -> bool) -> usize {
        self.cells.iter().filter(|cell| counted(**cell)).count()
    }

    /// How many cells are not land, and how many of them were not computed.
    pub fn not_computed(&self) -> (usize, usize) {
        (
            self.count(|cell| !cell.is_land()),
            self.count(|cell| cell == Cell::NotComputed),
        )
    }

    /// The chain to a pair, where there is one.
    pub fn chain(&self) -> Option<&Why> {
        self.why.filter(|why| !why.pairs.is_empty())
    }

    /// The cell of the chain at each cell of the grid, with its number in the order in which they come into it.
    pub fn on_chain(&self) -> Vec<Option<(usize, OnChain)>> {
        let mut found = vec![None; self.cells.len()];
        for (order, on_chain) in self.chain().into_iter().flat_map(Why::cells).enumerate() {
            found[self.placed.cells[on_chain.cell]] = Some((order, on_chain));
        }
        found
    }

    /// The runs that begin at each cell of the grid, in words, where it is on the track.
    pub fn runs_of_cells(&self) -> Vec<Option<String>> {
        let mut found = vec![None; self.cells.len()];
        if let Some(track) = self.track {
            for (cell, words) in track.runs_of_cells(self.placed.cells.len()).into_iter().enumerate() {
                found[self.placed.cells[cell]] = words;
            }
        }
        found
    }

    /// What is told beside the variances, in one line: the pair whose chain is asked for, or the largest run.
    pub fn subtitle(&self) -> Option<String> {
        match self.track {
            Some(track) => Some(track.summary()),
            None => self.why.map(Why::title),
        }
    }

    /// The variances that were computed.
    pub fn variances(&self) -> impl Iterator<Item = f64> + '_ {
        self.cells.iter().filter_map(|cell| match cell {
            Cell::Variance(value) => Some(*value),
            _ => None,
        })
    }

    /// The scale of the variances that have a colour, if there is one.
    pub fn scale(&self) -> Option<Scale> {
        Scale::coloured(self.variances(), self.colours)
    }

    /// How a cell is filled, beside the map's own scale.
    pub fn fill(&self, cell: Cell, scale: Option<&Scale>) -> Fill {
        fill(cell, scale, self.colours)
    }

    /// The patterns that some cell has.
    pub fn patterns(&self) -> impl Iterator<Item = Pattern> + '_ {
        Pattern::ALL
            .into_iter()
            .filter(|pattern| self.pattern_count(*pattern) > 0)
    }

    /// How many cells have a pattern.
    pub fn pattern_count(&self, pattern: Pattern) -> usize {
        self.count(|cell| cell.pattern(self.colours) == Some(pattern))
    }

    /// The ends of the scale that some variance is beyond: the end's colour, and how many cells have it for that, in words.
    pub fn beyond(&self) -> Vec<(Fill, String)> {
        let (Some(scale), Some((low, high))) = (self.scale(), self.colours.range) else {
            return Vec::new();
        };
        let count = |is_beyond: &dyn Fn(f64) -> bool| {
            let taken = self.variances().filter(|value| self.colours.takes(*value));
            taken.filter(|value| is_beyond(*value)).count()
        };
        let ends = [
            (high, "above", count(&|value| value > high)),
            (low, "below", count(&|value| value < low)),
        ];
        let used = ends.into_iter().filter(|(_, _, count)| *count > 0);
        used.map(|(end, side, count)| {
            let words = format!("{side} the range: {}", counted(count, "cell", "cells"));
            (Fill::Colour(scale.colour(end)), words)
        })
        .collect()
    }

    /// What the scale's numbers are, and whether it is logarithmic.
    pub fn scale_name(&self) -> String {
        let kind = if self.colours.log { " (logarithmic)" } else { "" };
        self.variance_name() + kind
    }

    /// What the numbers are, with their unit.
    pub fn variance_name(&self) -> String {
        match self.unit {
            Some(unit) => format!("variance, {}", squared(unit)),
            None => "variance".to_string(),
        }
    }

    pub fn deviation_name(&self) -> String {
        match self.unit {
            Some(unit) => format!("deviation, {unit}"),
            None => "deviation".to_string(),
        }
    }
}

/// How a cell is filled on a map of this scale; a cell whose variance has a colour is always on the map's own.
fn fill(cell: Cell, scale: Option<&Scale>, colours: Colours) -> Fill {
    match (cell, scale) {
        (Cell::Variance(value), Some(scale)) if colours.takes(value) => Fill::Colour(scale.colour(value)),
        _ => Fill::Pattern(cell.pattern(colours).unwrap_or(Pattern::NotFinite)),
    }
}

#[cfg(test)]
mod tests {
    use super::{Cell, Fill, Map, Pattern, Placed};
    use crate::checked::Checked;
    use crate::colours::Colours;
    use crate::grid::Grid;
    use crate::scale::Scale;
    use redstartgilt::{selected_inverse_diag_with_diagnostics, CholeskyFactor};

    #[test]
    fn a_cell_that_is_not_computed_has_no_numbers() {
        assert_eq!(
            (Cell::NotComputed.variance(), Cell::NotComputed.deviation()),
            (None, None)
        );
        assert_eq!((Cell::Land.variance(), Cell::Land.deviation()), (None, None));
        let zero = Cell::Variance(0.0);
        assert_eq!(
            (zero.variance().as_deref(), zero.deviation().as_deref()),
            (Some("0.0"), Some("0.0000"))
        );
        let zero = Cell::Variance(-0.0);
        assert_eq!(
            (zero.variance().as_deref(), zero.deviation().as_deref()),
            (Some("-0.0"), Some("0.0000"))
        );
        for value in [-1.0, f64::NAN, f64::INFINITY, f64::NEG_INFINITY] {
            let cell = Cell::Variance(value);
            assert_eq!(cell.coverage(), "computed");
            assert!(cell.variance().is_some() && cell.deviation().is_none());
        }
    }

    fn fill(cell: Cell, scale: Option<&Scale>) -> Fill {
        super::fill(cell, scale, Colours::default())
    }

    #[test]
    fn fills() {
        let scale = Scale::of([0.0, 2.0].into_iter());
        let least = fill(Cell::Variance(0.0), scale.as_ref());
        assert_eq!(least, Fill::Colour("#440154".to_string()));
        for (cell, pattern) in [
            (Cell::NotComputed, Pattern::NotComputed),
            (Cell::Land, Pattern::Land),
            (Cell::Variance(f64::NAN), Pattern::NotFinite),
        ] {
            assert_eq!(fill(cell, scale.as_ref()), Fill::Pattern(pattern));
            assert_eq!(fill(cell, None), Fill::Pattern(pattern));
        }
    }

    /// A row of cells on a map of these colours: how each is filled, and what the legend tells of the range.
    fn drawn(cells: &[Cell], colours: Colours) -> (Vec<Fill>, Vec<String>) {
        let grid = Grid {
            width: cells.len(),
            height: 1,
        };
        let placed = Placed {
            grid,
            cells: (0..cells.len()).collect(),
        };
        let factor = CholeskyFactor::from_triplets(1, &[(0, 0, 1.0)]).unwrap();
        let map = Map {
            title: "",
            titled: false,
            unit: None,
            cells,
            placed: &placed,
            colours,
            why: None,
            track: None,
            diagnostics: &selected_inverse_diag_with_diagnostics(&factor).unwrap().diagnostics,
            checked: Checked::No,
        };
        let scale = map.scale();
        let fills = cells.iter().map(|cell| map.fill(*cell, scale.as_ref()));
        let words = map.beyond().into_iter().map(|(_, words)| words);
        (fills.collect(), words.collect())
    }

    const LEAST: &str = "#440154";
    const MIDDLE: &str = "#21918c";
    const LARGEST: &str = "#fde725";

    #[test]
    fn fills_of_a_map() {
        let colour = |colour: &str| Fill::Colour(colour.to_string());
        let [zero, one, two, not_a_number] = [0.0, 1.0, 2.0, f64::NAN].map(Cell::Variance);
        let (fills, beyond) = drawn(
            &[zero, one, two, not_a_number, Cell::NotComputed, Cell::Land],
            Colours::default(),
        );
        let patterns = [Pattern::NotFinite, Pattern::NotComputed, Pattern::Land].map(Fill::Pattern);
        assert_eq!(fills[..3], [colour(LEAST), colour(MIDDLE), colour(LARGEST)]);
        assert_eq!((&fills[3..], beyond), (&patterns[..], Vec::new()));
        // Without a finite variance there is no scale.
        let (fills, _) = drawn(&[not_a_number, Cell::NotComputed, Cell::Land], Colours::default());
        assert_eq!(fills, patterns);
    }

    #[test]
    fn fills_of_a_range() {
        let colours = Colours {
            range: Some((1.0, 3.0)),
            log: false,
        };
        let cells = [-5.0, 0.5, 1.0, 2.0, 3.0, 9.0, f64::INFINITY].map(Cell::Variance);
        let (fills, beyond) = drawn(&cells, colours);
        let colour = |colour: &str| Fill::Colour(colour.to_string());
        assert_eq!(fills[..6], [LEAST, LEAST, LEAST, MIDDLE, LARGEST, LARGEST].map(colour));
        assert_eq!(fills[6], Fill::Pattern(Pattern::NotFinite));
        assert_eq!(beyond, ["above the range: 1 cell", "below the range: 2 cells"]);
    }

    #[test]
    fn fills_of_a_logarithmic_scale() {
        let colours = Colours { range: None, log: true };
        let colour = |colour: &str| Fill::Colour(colour.to_string());
        let cells = [0.01, 1.0, 100.0, 0.0, -0.0, -1.0, f64::NAN].map(Cell::Variance);
        let (fills, beyond) = drawn(&cells, colours);
        assert_eq!(fills[..3], [LEAST, MIDDLE, LARGEST].map(colour));
        assert_eq!(fills[3..6], vec![Fill::Pattern(Pattern::NotPositive); 3]);
        assert_eq!(fills[6], Fill::Pattern(Pattern::NotFinite));
        assert_eq!(beyond, Vec::<String>::new());
        // Values at or below 0 are outside the scale, and not below its range.
        let range = Some((0.1, 10.0));
        let (fills, beyond) = drawn(&cells, Colours { range, log: true });
        assert_eq!(fills[..3], [LEAST, MIDDLE, LARGEST].map(colour));
        assert_eq!(beyond, ["above the range: 1 cell", "below the range: 1 cell"]);
    }

    #[test]
    fn where_no_cell_is_placed_is_land() {
        let placed = Placed {
            grid: Grid { width: 2, height: 2 },
            cells: vec![3, 0],
        };
        assert_eq!(
            placed.map_cells([Some(4.0), None].into_iter()),
            [Cell::NotComputed, Cell::Land, Cell::Land, Cell::Variance(4.0)]
        );
    }
}
