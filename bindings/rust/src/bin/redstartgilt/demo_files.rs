//! The harbour of the demo as files, for the command and for other programs.

use crate::demo::Harbour;
use crate::failure::{written, Failure};
use crate::files;
use redstartgilt::Permutation;
use std::fmt::Write as _;
use std::io::Write;
use std::path::Path;

pub const HELP: &str = "  --write-files FOLDER
      with --demo and nothing else: write the harbour into a folder, which is
      made where it is missing, and print the names of the files. They are
      harbour-factor.mtx and, for --cell-to-place, harbour-permutation.txt; the
      precision matrix for --precision, harbour-precision.mtx;
      harbour-mask.txt for --mask; harbour-areas.mtx for --operator, whose rows
      are the mean depth of the turning basin and the volumes over the two
      dredging areas; inner-fairway.mtx for --requests
";

/// Writes each file into the folder, and prints its name.
pub fn write(output: &mut impl Write, folder: &Path, harbour: &Harbour) -> Result<(), Failure> {
    std::fs::create_dir_all(folder).map_err(|error| Failure::in_file(folder, error))?;
    for (name, text) in texts(harbour) {
        let file = folder.join(name);
        files::write(&file, text)?;
        written(writeln!(output, "{}", file.display()))?;
    }
    Ok(())
}

/// The files, each with its name.
fn texts(harbour: &Harbour) -> [(&'static str, String); 6] {
    let order = harbour.order();
    let n = harbour.placed.cells.len();
    [
        (
            "harbour-factor.mtx",
            matrix(
                "general",
                "The Cholesky factor of the harbour of redstartgilt --demo, in the order of harbour-permutation.txt.",
                [n, n],
                &harbour.lower(&order),
            ),
        ),
        ("harbour-permutation.txt", permutation(&order)),
        (
            "harbour-precision.mtx",
            matrix(
                "symmetric",
                "The precision matrix of the harbour of redstartgilt --demo, in the order of its cells.",
                [n, n],
                &lower_triangle(&harbour.precision(&Permutation::identity(n))),
            ),
        ),
        ("harbour-mask.txt", mask(harbour)),
        ("harbour-areas.mtx", areas(harbour)),
        ("inner-fairway.mtx", inner_fairway(harbour)),
    ]
}

/// A Matrix Market file of entries (row, column, value), which are counted from 0.
fn matrix(symmetry: &str, comment: &str, [rows, columns]: [usize; 2], entries: &[(usize, usize, f64)]) -> String {
    let mut text = format!(
        "%%MatrixMarket matrix coordinate real {symmetry}\n% {comment}\n{rows} {columns} {}\n",
        entries.len()
    );
    for (row, column, value) in entries {
        let _ = writeln!(text, "{} {} {value:?}", row + 1, column + 1);
    }
    text
}

/// The entries other than 0.0 on and below the diagonal, by column then row.
pub fn lower_triangle(matrix: &[Vec<f64>]) -> Vec<(usize, usize, f64)> {
    let n = matrix.len();
    (0..n)
        .flat_map(|column| (column..n).map(move |row| (row, column, matrix[row][column])))
        .filter(|(_, _, value)| *value != 0.0)
        .collect()
}

fn permutation(order: &Permutation) -> String {
    let mut text = String::from(
        "% The order of the factor of the harbour of redstartgilt --demo: the place in the factor of each cell.\n",
    );
    for place in &order.orig_to_perm {
        let _ = writeln!(text, "{}", place + 1);
    }
    text
}

fn mask(harbour: &Harbour) -> String {
    let grid = harbour.placed.grid;
    let mut digits = vec![b'0'; grid.width * grid.height];
    for cell in &harbour.placed.cells {
        digits[*cell] = b'1';
    }
    let mut text = String::from("% The harbour of redstartgilt --demo: 1 is water, 0 is land.\n");
    for row in digits.chunks(grid.width) {
        text.extend(row.iter().map(|digit| char::from(*digit)));
        text.push('\n');
    }
    text
}

fn areas(harbour: &Harbour) -> String {
    let rows = [harbour.basin()].into_iter().chain(harbour.volume_weights());
    let entries = rows.enumerate().flat_map(|(row, terms)| {
        let terms = terms.into_iter();
        terms.map(move |(water, weight)| (row, water, weight))
    });
    matrix(
        "general",
        "Areas of the harbour of redstartgilt --demo: the mean depth of the turning basin in metres, and the volumes \
         over\n% the western and the eastern dredging area in cubic metres.",
        [3, harbour.placed.cells.len()],
        &entries.collect::<Vec<_>>(),
    )
}

fn inner_fairway(harbour: &Harbour) -> String {
    let cells = harbour.inner_fairway();
    let n = harbour.placed.cells.len();
    let mut text = format!(
        "%%MatrixMarket matrix coordinate pattern symmetric\n\
         % The inner fairway of the harbour of redstartgilt --demo: the cells of columns 11 to 22 and rows 9 and 10.\n\
         {n} {n} {}\n",
        cells.len()
    );
    for cell in cells {
        let _ = writeln!(text, "{0} {0}", cell + 1);
    }
    text
}
