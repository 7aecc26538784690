//! A small harbour: a depth field with soundings of different density.

use crate::calibration::Calibration;
use crate::checked::Checked;
use crate::colours;
use crate::demo_files;
use crate::failure::{written, Failure};
use crate::grid::Grid;
use crate::map::{Map, Placed};
use crate::options::Options;
use crate::report::{self, NOT_COMPUTED};
use crate::why::Why;
use crate::{find, requested, write_map, Found};
use redstartgilt::{
    selected_inverse_transformed_covariances, selected_inverse_transformed_diag, CholeskyFactor, Error, Permutation,
    SparseRowOperator,
};
use std::io::{self, Write};
use std::ops::Range;

/// `#` land, `.` water that nobody has sounded, `+` one sounding by lead line, `*` sounded by echo sounder.
const CHART: [&str; 16] = [
    "....+....######.....####",
    "...........####..+....##",
    ".+........+.####......##",
    ".............###..+..###",
    "....+.........##.....###",
    "..........+....#....####",
    ".+..............+..#####",
    "......************..####",
    "..********************##",
    "***************+******##",
    "*****....+...##.******##",
    "..........#####.******##",
    "..+.....########****####",
    "......+..#########..####",
    ".........###############",
    "...+....################",
];
const LAND: u8 = b'#';

const TITLE: &str = "Harbour: variance of the depth";

/// Standard deviations in metres.
const DEPTH_ANYWHERE: f64 = 8.0;
const STEP_BETWEEN_NEIGHBOURS: f64 = 0.6;
const LEAD_LINE: f64 = 0.3;
const ECHO_SOUNDER: f64 = 0.1;

/// Cells of the table, by column and row from 0.
const PLACES: [(&str, usize, usize); 7] = [
    ("fairway, seaward end", 0, 9),
    ("fairway, middle", 10, 8),
    ("turning basin", 19, 9),
    ("beside the fairway", 10, 6),
    ("shoal with one sounding", 4, 4),
    ("creek", 20, 1),
    ("bay without soundings", 8, 14),
];

/// Columns and rows.
type Area = (Range<usize>, Range<usize>);

/// The basin whose mean depth is asked for.
const BASIN: Area = (16..22, 9..12);

/// Two dredging areas side by side, north of the fairway.
const DREDGING: [(&str, Area); 2] = [
    ("western dredging area", (2..8, 5..7)),
    ("eastern dredging area", (8..14, 5..7)),
];

/// The inner part of the fairway, whose cells are requests of a file.
const INNER_FAIRWAY: Area = (10..22, 8..10);

/// The side of a cell in metres.
const CELL_SIDE: f64 = 10.0;

/// The variances of the volumes over the two dredging areas, and their covariance.
struct Volumes {
    variances: [f64; 2],
    covariance: f64,
}

impl Volumes {
    /// The variance of the one volume less the other.
    fn of_difference(&self) -> f64 {
        self.variances[0] + self.variances[1] - 2.0 * self.covariance
    }
}

pub struct Harbour {
    /// The water cells, row by row.
    pub placed: Placed,
    /// The water cell at each cell of the grid.
    water: Vec<Option<usize>>,
}

impl Harbour {
    pub fn new() -> Self {
        let grid = Grid {
            width: CHART[0].len(),
            height: CHART.len(),
        };
        let mut cells = Vec::new();
        let mut water = Vec::new();
        for (number, mark) in CHART.iter().flat_map(|row| row.bytes()).enumerate() {
            water.push((mark != LAND).then_some(cells.len()));
            if mark != LAND {
                cells.push(number);
            }
        }
        let placed = Placed { grid, cells };
        Self { placed, water }
    }

    fn mark(&self, water: usize) -> u8 {
        let (column, row) = self.placed.place(water);
        CHART[row].as_bytes()[column]
    }

    fn at(&self, column: usize, row: usize) -> Option<usize> {
        (column < self.placed.grid.width && row < self.placed.grid.height)
            .then(|| self.water[row * self.placed.grid.width + column])
            .flatten()
    }

    /// Pairs of neighbouring water cells.
    fn neighbours(&self) -> Vec<(usize, usize)> {
        let mut pairs = Vec::new();
        for water in 0..self.placed.cells.len() {
            let (column, row) = self.placed.place(water);
            let beside = [self.at(column + 1, row), self.at(column, row + 1)];
            pairs.extend(beside.into_iter().flatten().map(|other| (water, other)));
        }
        pairs
    }

    /// Column by column, as the grid is wider than high: the factor then has fewer entries.
    pub fn order(&self) -> Permutation {
        let mut perm_to_orig = (0..self.placed.cells.len()).collect::<Vec<_>>();
        perm_to_orig.sort_by_key(|water| self.placed.place(*water));
        let mut orig_to_perm = vec![0; perm_to_orig.len()];
        for (place, water) in perm_to_orig.iter().enumerate() {
            orig_to_perm[*water] = place;
        }
        Permutation {
            orig_to_perm,
            perm_to_orig,
        }
    }

    /// The precision matrix of the depths given the soundings, rows and columns in this order.
    pub fn precision(&self, order: &Permutation) -> Vec<Vec<f64>> {
        let precision_of = |deviation: f64| 1.0 / (deviation * deviation);
        let n = self.placed.cells.len();
        let mut matrix = vec![vec![0.0; n]; n];
        for water in 0..n {
            let place = order.orig_to_perm[water];
            matrix[place][place] += precision_of(DEPTH_ANYWHERE);
            match self.mark(water) {
                b'+' => matrix[place][place] += precision_of(LEAD_LINE),
                b'*' => matrix[place][place] += precision_of(ECHO_SOUNDER),
                _ => {}
            }
        }
        for (one, other) in self.neighbours() {
            let (a, b) = (order.orig_to_perm[one], order.orig_to_perm[other]);
            let step = precision_of(STEP_BETWEEN_NEIGHBOURS);
            matrix[a][a] += step;
            matrix[b][b] += step;
            matrix[a][b] -= step;
            matrix[b][a] -= step;
        }
        matrix
    }

    /// The entries (row, column, value) of the factor of the precision matrix in this order, by column then row.
    pub fn lower(&self, order: &Permutation) -> Vec<(usize, usize, f64)> {
        cholesky(self.precision(order))
    }

    /// The factor of the precision matrix, with its order.
    fn factor(&self) -> Result<CholeskyFactor, Error> {
        let order = self.order();
        CholeskyFactor::from_triplets(self.placed.cells.len(), &self.lower(&order))?.with_permutation(order)
    }

    /// The weights of the water cells in the mean depth of the basin.
    pub fn basin(&self) -> Vec<(usize, f64)> {
        let basin = self.water_of(BASIN);
        let weight = 1.0 / basin.len() as f64;
        basin.into_iter().map(|water| (water, weight)).collect()
    }

    /// The variance of the mean depth of the basin. It is asked for by itself, so it is there whatever cells are asked
    /// for.
    fn basin_mean(&self, factor: &CholeskyFactor) -> Result<f64, Error> {
        let mean = SparseRowOperator::new(self.placed.cells.len(), vec![self.basin()])?;
        let means = selected_inverse_transformed_diag(factor, &mean)?;
        // Its closed set is within all pairs of the harbour, which are within the limit.
        Ok(means.estimate.ok_or(Error::NotCovered)?.values[0])
    }

    /// The water cells of an area.
    fn water_of(&self, (columns, rows): Area) -> Vec<usize> {
        rows.flat_map(|row| columns.clone().filter_map(move |column| self.at(column, row)))
            .collect()
    }

    /// The water cells of the inner fairway.
    pub fn inner_fairway(&self) -> Vec<usize> {
        self.water_of(INNER_FAIRWAY)
    }

    /// The weights of the water cells in the volume of water over each dredging area, in cubic metres.
    pub fn volume_weights(&self) -> [Vec<(usize, f64)>; 2] {
        DREDGING.map(|(_, area)| {
            let cells = self.water_of(area).into_iter();
            cells.map(|water| (water, CELL_SIDE * CELL_SIDE)).collect()
        })
    }

    /// A row for each dredging area: the volume of water over it.
    fn dredging(&self) -> Result<SparseRowOperator, Error> {
        SparseRowOperator::new(self.placed.cells.len(), self.volume_weights().to_vec())
    }

    /// A row with itself is a variance, so one call has all that the difference of the volumes needs.
    fn volumes(&self, factor: &CholeskyFactor) -> Result<Volumes, Error> {
        let areas = self.dredging()?;
        let pairs = [(0, 0), (1, 1), (0, 1)];
        let found = selected_inverse_transformed_covariances(factor, &areas, &areas, &pairs)?;
        let values = found.covariances.ok_or(Error::NotCovered)?;
        Ok(Volumes {
            variances: [values[0], values[1]],
            covariance: values[2],
        })
    }

    fn soundings(&self, water: usize) -> &'static str {
        match self.mark(water) {
            b'+' => "lead line",
            b'*' => "echo sounder",
            _ => "none",
        }
    }

    /// A short table of a few places.
    fn table(&self, output: &mut impl Write, found: &Found, basin_mean: f64, volumes: &Volumes) -> io::Result<()> {
        writeln!(
            output,
            "A harbour of {} x {} cells, {} of them water; variances of the depth in square metres.",
            self.placed.grid.width,
            self.placed.grid.height,
            self.placed.cells.len()
        )?;
        report::counts(output, &found.diagnostics)?;
        report::coverage(output, &found.variances)?;
        writeln!(
            output,
            "{:<24} {:>6} {:>3}  {:<12} {:>9}  variance",
            "place", "column", "row", "sounded by", "deviation"
        )?;
        for (name, column, row) in PLACES {
            if let Some(water) = self.at(column, row) {
                let (deviation, variance) = match found.variances[water] {
                    Some(variance) => (format!("{:.3} m", variance.sqrt()), format!("{variance:?}")),
                    None => ("none".to_string(), NOT_COMPUTED.to_string()),
                };
                writeln!(
                    output,
                    "{name:<24} {:>6} {:>3}  {:<12} {deviation:>9}  {variance}",
                    column + 1,
                    row + 1,
                    self.soundings(water)
                )?;
            }
        }
        writeln!(
            output,
            "{:<48} {:>7.3} m  {basin_mean:?}",
            "mean depth of the turning basin",
            basin_mean.sqrt()
        )?;
        let [west, east] = DREDGING.map(|(_, area)| self.water_of(area).len());
        writeln!(
            output,
            "Two dredging areas, {west} and {east} cells of {CELL_SIDE} x {CELL_SIDE} m; volumes in cubic metres, their \
             variances in those squared."
        )?;
        let mut volume =
            |name: &str, variance: f64| writeln!(output, "{name:<48} {:>6.1} m3  {variance:?}", variance.sqrt());
        for ((name, _), variance) in DREDGING.into_iter().zip(volumes.variances) {
            volume(&format!("volume over the {name}"), variance)?;
        }
        volume("difference of the two volumes", volumes.of_difference())?;
        writeln!(
            output,
            "{:<48} {:>9}  {:?}",
            "covariance of the two volumes", "", volumes.covariance
        )
    }

    /// Every water cell.
    fn csv(&self, output: &mut impl Write, found: &Found) -> io::Result<()> {
        writeln!(output, "cell,column,row,variance,covered")?;
        for (water, variance) in found.variances.iter().enumerate() {
            let (column, row) = self.placed.place(water);
            let fields = report::csv_fields(*variance);
            writeln!(output, "{},{},{},{fields}", water + 1, column + 1, row + 1)?;
        }
        Ok(())
    }
}

/// The entries (row, column, value) other than 0.0 of the lower factor of a positive definite matrix.
fn cholesky(mut matrix: Vec<Vec<f64>>) -> Vec<(usize, usize, f64)> {
    let n = matrix.len();
    let mut triplets = Vec::new();
    for column in 0..n {
        for row in column..n {
            let sum: f64 = (0..column).map(|k| matrix[row][k] * matrix[column][k]).sum();
            let left = matrix[row][column] - sum;
            matrix[row][column] = if row == column {
                left.sqrt()
            } else {
                left / matrix[column][column]
            };
            if matrix[row][column] != 0.0 {
                triplets.push((row, column, matrix[row][column]));
            }
        }
    }
    triplets
}

/// Prints the harbour, and draws it where a file is given; or writes its files.
pub fn run(output: &mut impl Write, options: &Options) -> Result<(), Failure> {
    const PLACE: &str = "the harbour";
    let refused = |error| Failure::refused_at(PLACE, error);
    let harbour = Harbour::new();
    if let Some(folder) = &options.write_files {
        return demo_files::write(output, folder, &harbour);
    }
    let factor = harbour.factor().map_err(refused)?;
    let requested = requested(&factor.permutation(), options)?;
    let why = options.why.map(|pair| Why::find(PLACE, &factor, &requested, pair));
    let why = why.transpose()?;
    let found = find(PLACE, &factor, &requested, options)?;
    let placed = &harbour.placed;
    let map = Map {
        title: &colours::title(options, TITLE.to_string(), false),
        titled: options.title.is_some(),
        unit: Some("m"),
        cells: &placed.map_cells(found.variances.iter().copied()),
        placed,
        colours: options.colours,
        why: why.as_ref(),
        track: None,
        diagnostics: &found.diagnostics,
        checked: Checked::No,
    };
    write_map(options, &map)?;
    written(report::heading(output, options))?;
    written(if let Some(why) = &why {
        report::why(output, options.csv, why, Some(placed))
    } else if options.csv {
        harbour.csv(output, &found)
    } else {
        let basin_mean = harbour.basin_mean(&factor).map_err(refused)?;
        let volumes = harbour.volumes(&factor).map_err(refused)?;
        let calibration = Calibration::new().map_err(refused)?;
        let tables = harbour.table(output, &found, basin_mean, &volumes);
        tables.and_then(|()| calibration.table(output))
    })
}

#[cfg(test)]
mod tests {
    use super::{Harbour, CHART, DREDGING, PLACES};
    use crate::demo_files::lower_triangle;
    use crate::map::Cell;
    use redstartgilt::{selected_inverse_transformed_diag, Permutation, Precision, SparseRowOperator};

    #[test]
    fn the_chart_is_a_grid_and_its_places_are_water() {
        assert!(CHART.iter().all(|row| row.len() == CHART[0].len()));
        let harbour = Harbour::new();
        for (name, column, row) in PLACES {
            assert!(harbour.at(column, row).is_some(), "{name}");
        }
    }

    /// Each column of the inverse by solving with the precision matrix itself, without the factor.
    #[test]
    fn the_variances_are_those_of_the_inverse() {
        let harbour = Harbour::new();
        let order = harbour.order();
        let variances = crate::all_variances(&harbour.factor().unwrap(), None)
            .unwrap()
            .variances;
        let n = harbour.placed.cells.len();
        let mut left = harbour.precision(&order);
        let mut right = vec![vec![0.0; n]; n];
        for (place, row) in right.iter_mut().enumerate() {
            row[place] = 1.0;
        }
        for pivot in 0..n {
            let (left_pivot, right_pivot) = (left[pivot].clone(), right[pivot].clone());
            for row in (0..n).filter(|row| *row != pivot) {
                let times = left[row][pivot] / left_pivot[pivot];
                if times != 0.0 {
                    for column in 0..n {
                        left[row][column] -= times * left_pivot[column];
                        right[row][column] -= times * right_pivot[column];
                    }
                }
            }
        }
        for (water, variance) in variances.iter().enumerate() {
            let place = order.orig_to_perm[water];
            let expected = right[place][place] / left[place][place];
            let found = variance.unwrap();
            assert!(
                (found - expected).abs() <= 1e-9 * expected,
                "{water}: {found} {expected}"
            );
        }
    }

    /// The difference by its own weights, the second area's negative.
    #[test]
    fn the_difference_of_the_volumes() {
        let harbour = Harbour::new();
        for (name, (columns, rows)) in DREDGING {
            let cells = columns.len() * rows.len();
            assert_eq!(harbour.water_of((columns, rows)).len(), cells, "{name}");
        }
        let factor = harbour.factor().unwrap();
        let volumes = harbour.volumes(&factor).unwrap();
        assert!(volumes.covariance > 0.0);
        let areas = harbour.dredging().unwrap();
        let variances = selected_inverse_transformed_diag(&factor, &areas).unwrap();
        assert_eq!(variances.estimate.unwrap().values, volumes.variances);
        let less = areas.rows[1].iter().map(|(water, weight)| (*water, -weight));
        let row = areas.rows[0].iter().copied().chain(less).collect();
        let difference = SparseRowOperator::new(harbour.placed.cells.len(), vec![row]).unwrap();
        let expected = selected_inverse_transformed_diag(&factor, &difference).unwrap();
        let expected = expected.estimate.unwrap().values[0];
        assert!((volumes.of_difference() - expected).abs() <= 1e-9 * expected);
    }

    #[test]
    fn the_factor_is_that_of_the_precision_matrix() {
        let harbour = Harbour::new();
        let n = harbour.placed.cells.len();
        let triplets = lower_triangle(&harbour.precision(&Permutation::identity(n)));
        let precision = Precision::from_triplets(n, &triplets).unwrap();
        assert_eq!(harbour.factor().unwrap().check_against(&precision), Ok(()));
    }

    /// Land is land and not "not computed".
    #[test]
    fn land_stays_land() {
        let harbour = Harbour::new();
        let cells = harbour.placed.map_cells(harbour.placed.cells.iter().map(|_| None));
        let marks = CHART.iter().flat_map(|row| row.bytes());
        assert_eq!(cells.len(), marks.clone().count());
        for (cell, mark) in cells.iter().zip(marks) {
            let expected = if mark == b'#' { Cell::Land } else { Cell::NotComputed };
            assert_eq!(*cell, expected);
        }
    }
}
