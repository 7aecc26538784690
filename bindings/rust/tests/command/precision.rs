//! The factor held against Q, Q factorised, and the mistakes that are made in handing a factor over.

use crate::document::elements;
use crate::Folder;
use std::io::Write;
use std::process::Command;

/// A dense matrix by rows.
type Dense = Vec<Vec<f64>>;

const GENERAL: &str = "%%MatrixMarket matrix coordinate real general\n";
const SYMMETRIC: &str = "%%MatrixMarket matrix coordinate real symmetric\n";

/// Whether the command was built with CHOLMOD; where not, what is skipped is told.
fn has_cholmod(what: &str) -> bool {
    if !cfg!(cholmod) {
        // Not by a macro, whose words the tests' runner keeps back.
        let _ = writeln!(
            std::io::stderr(),
            "skipped: {what}, as the command is built without CHOLMOD (Debian: apt-get install libsuitesparse-dev)"
        );
    }
    cfg!(cholmod)
}

/// (κ² − Δ)² of the five-point stencil on a grid: the precision of a field with a Matérn covariance.
fn matern(width: usize, height: usize) -> Dense {
    let n = width * height;
    let mut stencil = vec![vec![0.0; n]; n];
    for cell in 0..n {
        let (x, y) = (cell % width, cell / width);
        stencil[cell][cell] += 0.3;
        let right = (x + 1 < width).then_some(cell + 1);
        let below = (y + 1 < height).then_some(cell + width);
        for other in right.into_iter().chain(below) {
            stencil[cell][cell] += 1.0;
            stencil[other][other] += 1.0;
            stencil[cell][other] -= 1.0;
            stencil[other][cell] -= 1.0;
        }
    }
    let mut q = vec![vec![0.0; n]; n];
    for row in &stencil {
        let stored = (0..n).filter(|cell| row[*cell] != 0.0).collect::<Vec<_>>();
        for one in &stored {
            for other in &stored {
                q[*one][*other] += row[*one] * row[*other];
            }
        }
    }
    q
}

/// Rows and columns in the order of these cells.
fn in_order(q: &Dense, cells: &[usize]) -> Dense {
    let row = |cell: &usize| cells.iter().map(|other| q[*cell][*other]).collect();
    cells.iter().map(row).collect()
}

/// The first column of each row that is not 0.0, in the matrix and in its lower factor.
fn first_columns(q: &Dense) -> Vec<usize> {
    let first = |row: &Vec<f64>| row.iter().position(|value| *value != 0.0).unwrap();
    q.iter().map(first).collect()
}

/// The lower factor.
fn cholesky(q: &Dense) -> Dense {
    let (n, first) = (q.len(), first_columns(q));
    let mut lower = vec![vec![0.0; n]; n];
    for row in 0..n {
        for column in first[row]..=row {
            let begin = first[row].max(first[column]);
            let sum: f64 = (begin..column).map(|k| lower[row][k] * lower[column][k]).sum();
            lower[row][column] = match q[row][column] - sum {
                left if row == column => f64::sqrt(left),
                left => left / lower[column][column],
            };
        }
    }
    lower
}

/// The diagonal of the inverse, by the inverse of the lower factor.
fn variances(q: &Dense) -> Vec<f64> {
    let (n, first, lower) = (q.len(), first_columns(q), cholesky(q));
    let of_cell = |cell: usize| {
        let mut column = vec![0.0; n];
        column[cell] = 1.0 / lower[cell][cell];
        for row in cell + 1..n {
            let sum: f64 = (first[row].max(cell)..row).map(|k| lower[row][k] * column[k]).sum();
            column[row] = -sum / lower[row][row];
        }
        column.iter().map(|value| value * value).sum()
    };
    (0..n).map(of_cell).collect()
}

fn transposed(matrix: &Dense) -> Dense {
    (0..matrix.len())
        .map(|column| matrix.iter().map(|row| row[column]).collect())
        .collect()
}

/// The factor of L·D·Lᵀ with D on its diagonal.
fn pivots_on_diagonal(lower: &Dense) -> Dense {
    let mut stored = lower.clone();
    for (row, values) in stored.iter_mut().enumerate() {
        for (column, value) in values.iter_mut().enumerate().take(row + 1) {
            let divisor = lower[column][column];
            *value = if row == column {
                divisor * divisor
            } else {
                *value / divisor
            };
        }
    }
    stored
}

/// A file of the entries other than 0.0 that are asked for.
fn file(header: &str, matrix: &Dense, is_in: impl Fn(usize, usize) -> bool) -> String {
    let n = matrix.len();
    let cells = (0..n).flat_map(|row| (0..n).map(move |column| (row, column)));
    let stored = cells.filter(|(row, column)| matrix[*row][*column] != 0.0 && is_in(*row, *column));
    let lines = stored.map(|(row, column)| format!("{} {} {:?}\n", row + 1, column + 1, matrix[row][column]));
    let lines = lines.collect::<Vec<_>>();
    format!("{header}{n} {n} {}\n{}", lines.len(), lines.concat())
}

fn list(numbers: impl Iterator<Item = usize>) -> String {
    numbers.map(|number| format!("{}\n", number + 1)).collect()
}

fn place_of(cells: &[usize]) -> Vec<usize> {
    let mut places = vec![0; cells.len()];
    for (place, cell) in cells.iter().enumerate() {
        places[*cell] = place;
    }
    places
}

/// The variances that are printed.
fn printed(csv: &str) -> Vec<f64> {
    let mut lines = csv.lines().map(|line| line.split(',').collect::<Vec<_>>());
    let names = lines.next().unwrap();
    let place = names.iter().position(|name| *name == "variance").unwrap();
    lines.map(|line| line[place].parse().unwrap()).collect()
}

/// Comma-separated values without their last column, which says that the factor was held against Q.
fn unmarked(csv: &str) -> String {
    let ends = std::iter::once(",checked").chain(std::iter::repeat(",yes"));
    let lines = csv.lines().zip(ends);
    lines
        .map(|(line, end)| format!("{}\n", line.strip_suffix(end).expect(end)))
        .collect()
}

fn close(found: &[f64], expected: &[f64]) {
    assert_eq!(found.len(), expected.len());
    for (found, expected) in found.iter().zip(expected) {
        assert!((found - expected).abs() <= 1e-10 * expected, "{found} {expected}");
    }
}

/// Q of 6 x 4 cells, and its factor in an order that is not its own inverse.
fn handed_over(name: &str) -> (Folder, Dense, Dense) {
    let folder = Folder::new(name);
    let q = matern(6, 4);
    let cells = (0..24).map(|place| (place * 5 + 3) % 24).collect::<Vec<_>>();
    let lower = cholesky(&in_order(&q, &cells));
    folder.write("Q.mtx", file(SYMMETRIC, &q, |row, column| row >= column));
    folder.write("L.mtx", file(GENERAL, &lower, |_, _| true));
    folder.write("cells.txt", list(cells.iter().copied()));
    folder.write("places.txt", list(place_of(&cells).into_iter()));
    (folder, q, lower)
}

#[test]
fn the_factor_of_q() {
    let (folder, q, lower) = handed_over("precision");
    let expected = variances(&q);
    let order = [
        ["--place-to-cell", "cells.txt"],
        ["--cell-to-place", "places.txt"],
        ["--permutation", "places.txt"],
    ];
    for [name, list] in order {
        let csv = folder.prints(&["L.mtx", name, list, "--precision", "Q.mtx", "--csv"]);
        close(&printed(&csv), &expected);
        assert_eq!(unmarked(&csv), folder.prints(&["L.mtx", name, list, "--csv"]));
    }
    // Both triangles, an array, and an array of one triangle.
    folder.write("both.mtx", file(GENERAL, &q, |_, _| true));
    let values = |first: fn(usize) -> usize| {
        let columns = q
            .iter()
            .enumerate()
            .flat_map(|(column, values)| &values[first(column)..]);
        columns.map(|value| format!("{value:?}\n")).collect::<String>()
    };
    let head = "%%MatrixMarket matrix array real";
    folder.write("array.mtx", format!("{head} general\n24 24\n{}", values(|_| 0)));
    folder.write(
        "half.mtx",
        format!("{head} symmetric\n24 24\n{}", values(|column| column)),
    );
    for form in ["both.mtx", "array.mtx", "half.mtx"] {
        folder.prints(&["L.mtx", "--place-to-cell", "cells.txt", "--precision", form]);
    }
    // With pivots, diagonals stored or not.
    let stored = pivots_on_diagonal(&lower);
    folder.write("unit.mtx", file(GENERAL, &stored, |row, column| row > column));
    let pivots = (0..24).map(|column| format!("{:?}\n", stored[column][column]));
    folder.write("D.txt", pivots.collect::<String>());
    let words = [
        "unit.mtx",
        "--pivots",
        "D.txt",
        "--place-to-cell",
        "cells.txt",
        "--precision",
        "Q.mtx",
    ];
    close(&printed(&folder.prints(&[&words[..], &["--csv"]].concat())), &expected);
    let message = folder.fails(
        &[
            "unit.mtx",
            "--pivots",
            "D.txt",
            "--permutation",
            "cells.txt",
            "--precision",
            "Q.mtx",
        ],
        5,
    );
    assert!(
        message.contains("With its list of the order read the other way it is"),
        "{message}"
    );
    // Numbers of 15 digits are within the bound, of 12 they are not.
    for (digits, status) in [(15, 0), (12, 5)] {
        let rounded = lower.iter().map(|row| {
            let values = row
                .iter()
                .map(|value| format!("{value:.*e}", digits - 1).parse::<f64>().unwrap());
            values.collect::<Vec<_>>()
        });
        folder.write("rounded.mtx", file(GENERAL, &rounded.collect(), |_, _| true));
        let output = folder.run(&["rounded.mtx", "--place-to-cell", "cells.txt", "--precision", "Q.mtx"]);
        assert_eq!(output.status.code(), Some(status), "{digits}");
    }
}

/// That it was checked is told in text, in comma-separated values, on maps and on pages; where it was not, nothing is.
#[test]
fn what_is_told() {
    let (folder, _, _) = handed_over("precision-told");
    let words = [
        "L.mtx",
        "--place-to-cell",
        "cells.txt",
        "--grid",
        "6x4",
        "--svg",
        "map.svg",
        "--html",
        "map.html",
    ];
    let without = folder.prints(&words);
    let maps = || ["map.svg", "map.html"].map(|map| folder.read(map));
    assert!(without.starts_with("Complete: 24 pairs"), "{without}");
    assert!(maps().iter().all(|map| !map.contains("against Q")));
    let q = ["--precision", "Q.mtx"];
    assert_eq!(
        folder.prints(&[&words[..], &q].concat()),
        format!("Checked against Q: multiplied out, the factor is Q within rounding.\n{without}")
    );
    let [picture, page] = maps();
    elements(&picture);
    assert!(picture.contains(">checked against Q</text>"));
    assert!(page.contains("<p id=\"checked\">The factor is checked against Q.</p>"));
    for more in [&[][..], &["--entries"]] {
        let words = [&["L.mtx", "--place-to-cell", "cells.txt", "--csv"], more].concat();
        let marked = folder.prints(&[&words[..], &q].concat());
        assert_eq!(unmarked(&marked), folder.prints(&words));
    }
}

/// Each mistake, beside Q.
#[test]
fn mistakes() {
    let (folder, q, lower) = handed_over("precision-mistakes");
    let order = ["--place-to-cell", "cells.txt"];
    let checked = |file: &str, order: &[&str]| {
        let message = folder.fails(&[&[file, "--precision", "Q.mtx"], order].concat(), 5);
        assert!(
            message.starts_with(&format!("{file} is not the factor of Q.mtx: entry (")),
            "{message}"
        );
        message
    };
    // The upper factor, in an order and not.
    let above = |matrix: &Dense| {
        let entries = (0..24).flat_map(|row| (row + 1..24).map(move |column| (row, column)));
        entries.filter(|(row, column)| matrix[*row][*column] != 0.0).count()
    };
    let upper = transposed(&cholesky(&q));
    folder.write("U.mtx", file(GENERAL, &upper, |_, _| true));
    let message = format!(
        "U.mtx: this looks like an upper factor: {} entries above the diagonal, 0 below it. A factor is lower, L of L times \
         its transpose; transpose it",
        above(&upper)
    );
    for more in [&[][..], &["--csv", "--requests", "r.txt"]] {
        let words = [&["U.mtx", "--precision", "Q.mtx"], more].concat();
        assert_eq!(folder.fails(&words, 1), message);
    }
    // An upper factor of a matrix without fill has fewer entries above the diagonal than on it.
    folder.write("U.mtx", format!("{GENERAL}3 3 5\n1 1 1\n2 2 1\n3 3 1\n1 2 1\n2 3 1\n"));
    assert!(folder
        .fails(&["U.mtx", "--precision", "Q.mtx"], 1)
        .starts_with("U.mtx: this looks like an upper factor: 2 entries above"));
    // Q itself, as both forms of file.
    folder.write("both.mtx", file(GENERAL, &q, |_, _| true));
    assert_eq!(
        folder.fails(&["both.mtx", "--precision", "Q.mtx"], 1),
        "both.mtx: this matrix is symmetric, and a factor is lower: this looks like Q itself. --precision takes Q, and \
         without FACTOR factorises it"
    );
    folder.write("lower.mtx", file(GENERAL, &q, |row, column| row >= column));
    for itself in ["lower.mtx", "Q.mtx"] {
        assert!(checked(itself, &[]).ends_with("which is no factor; without FACTOR, --precision factorises Q"));
    }
    // L·D·Lᵀ with D on the diagonal of L.
    folder.write("LD.mtx", file(GENERAL, &pivots_on_diagonal(&lower), |_, _| true));
    let message = checked("LD.mtx", &order);
    let hint =
        "It is L of L times D times its transpose with D on its diagonal: give D by --pivots, and ones on the diagonal";
    assert!(message.ends_with(hint), "{message}");
    // The order the wrong way round, and no order.
    for (order, list) in [
        ("--place-to-cell", "places.txt"),
        ("--cell-to-place", "cells.txt"),
        ("--permutation", "cells.txt"),
    ] {
        let message = checked("L.mtx", &[order, list]);
        let hint =
            "With its list of the order read the other way it is: --cell-to-place (or --permutation) has the place of \
                    each cell, --place-to-cell the cell at each place";
        assert!(message.ends_with(hint), "{message}");
    }
    let message = checked("L.mtx", &[]);
    assert!(
        message.ends_with("that of a permuted factor is given by --place-to-cell or --cell-to-place"),
        "{message}"
    );
    // One entry that is off by a millionth.
    let mut off = lower.clone();
    off[7][7] *= 1.000001;
    folder.write("off.mtx", file(GENERAL, &off, |_, _| true));
    checked("off.mtx", &order);
    // Few digits.
    let rounded = |value: &f64| format!("{value:.7e}").parse::<f64>().unwrap();
    let rounded = lower.iter().map(|row| row.iter().map(rounded).collect::<Vec<_>>());
    folder.write("few.mtx", file(GENERAL, &rounded.collect(), |_, _| true));
    let message = checked("few.mtx", &order);
    assert!(
        message.ends_with("written with too few digits: 15 are needed, and 17 give every float back"),
        "{message}"
    );
    // Entries above the diagonal, fewer than below, are dropped.
    let mut work = lower.clone();
    (work[0][1], work[0][2]) = (9.0, -9.0);
    folder.write("work.mtx", file(GENERAL, &work, |_, _| true));
    folder.prints(&[&["work.mtx", "--precision", "Q.mtx"], &order[..]].concat());
}

/// The message has the entry in cells, both numbers and the bound.
#[test]
fn the_entry_that_differs_most() {
    let folder = Folder::new("precision-entry");
    folder.write(
        "Q.mtx",
        format!("{SYMMETRIC}3 3 5\n1 1 4\n2 2 4\n3 3 17\n3 1 8\n3 2 1e-3\n"),
    );
    folder.write("L.mtx", format!("{GENERAL}3 3 4\n1 1 2\n2 1 4\n2 2 1\n3 3 2\n"));
    folder.write("cells.txt", "1\n3\n2\n");
    let message = folder.fails(&["L.mtx", "--precision", "Q.mtx", "--place-to-cell", "cells.txt"], 5);
    assert_eq!(
        message,
        "L.mtx is not the factor of Q.mtx: entry (3, 2) of Q is 0.001, but of the factor multiplied out it is 0.0, and \
         rounding does not make them differ"
    );
    // An entry of the product where Q stores none.
    folder.write("Q.mtx", format!("{SYMMETRIC}3 3 3\n1 1 4\n2 2 4\n3 3 17\n"));
    let message = folder.fails(&["L.mtx", "--precision", "Q.mtx", "--place-to-cell", "cells.txt"], 5);
    let told =
        "entry (3, 1) of Q is 0.0, but of the factor multiplied out it is 8.0, and rounding may make them differ";
    assert!(message.contains(told), "{message}");
    // Products that are too large for floats are no Q.
    folder.write("Q.mtx", format!("{SYMMETRIC}1 1 1\n1 1 1e308\n"));
    folder.write("L.mtx", format!("{GENERAL}1 1 1\n1 1 1e200\n"));
    let message = folder.fails(&["L.mtx", "--precision", "Q.mtx"], 5);
    assert!(message.contains("entry (1, 1) of Q is 1e308, but of the factor multiplied out it is inf"));
}

#[test]
fn whole_numbers() {
    let folder = Folder::new("precision-whole");
    let head = "%%MatrixMarket matrix coordinate integer";
    folder.write(
        "L.mtx",
        format!("{head} general\n3 3 5\n1 1 1\n2 1 -94906267\n3 2 5\n2 2 1\n3 3 1\n"),
    );
    let q = |header: &str, entry: &str| format!("{header}3 3 5\n1 1 1\n2 1 -94906267\n2 2 {entry}\n3 2 5\n3 3 26\n");
    let words = ["--whole", "L.mtx", "--precision", "Q.mtx", "--requests", "last.txt"];
    folder.write("last.txt", "3 3\n");
    // The square of 94906267 is no float, and is told from the next number.
    folder.write("Q.mtx", q(&format!("{head} symmetric\n"), "9007199515875290"));
    let output = folder.run(&words);
    assert_eq!(output.status.code(), Some(0));
    let text = String::from_utf8(output.stdout).unwrap();
    assert!(
        text.starts_with("Checked against Q: multiplied out, the factor is Q exactly.\n"),
        "{text}"
    );
    folder.write("Q.mtx", q(&format!("{head} symmetric\n"), "9007199515875291"));
    let message = folder.fails(&words, 5);
    let told =
        "L.mtx is not the factor of Q.mtx: entry (2, 2) of Q is 9007199515875291, but of the factor multiplied out it is \
                9007199515875290. No order is given";
    assert!(message.starts_with(told), "{message}");
    // Whole numbers in a real file.
    folder.write("Q.mtx", q(SYMMETRIC, "9007199515875290.0"));
    folder.prints(&words);
    folder.write(
        "Q.mtx",
        q(SYMMETRIC, "9007199515875290.5").replace("3 3 26", "3 3 26.5"),
    );
    assert_eq!(
        folder.fails(&words, 1),
        "Q.mtx:7: value 26.5 is not a whole number of 64 bits"
    );
    // An order, the right and the wrong way.
    folder.write(
        "Q.mtx",
        format!("{head} symmetric\n3 3 5\n2 2 1\n3 2 -94906267\n3 3 9007199515875290\n3 1 5\n1 1 26\n"),
    );
    folder.write("cells.txt", "2\n3\n1\n");
    folder.prints(&[&words[..], &["--place-to-cell", "cells.txt"]].concat());
    let message = folder.fails(&[&words[..], &["--cell-to-place", "cells.txt"]].concat(), 5);
    assert!(
        message.contains("With its list of the order read the other way it is"),
        "{message}"
    );
}

#[test]
fn malformed_matrices() {
    let (folder, _, _) = handed_over("precision-malformed");
    let words = ["L.mtx", "--place-to-cell", "cells.txt", "--precision", "q.mtx"];
    let array = "%%MatrixMarket matrix array real general\n";
    let cases = [
        (String::new(), "q.mtx: the file is empty"),
        (
            "%%MatrixMarket matrix coordinate real hermitian\n".into(),
            "q.mtx:1: a precision matrix must be symmetric or general, not hermitian",
        ),
        (
            "%%MatrixMarket matrix coordinate pattern symmetric\n".into(),
            "q.mtx:1: values must be real or integer, not pattern",
        ),
        (
            format!("{SYMMETRIC}2 3 0\n"),
            "q.mtx:2: a precision matrix is square, but this has 2 rows and 3 columns",
        ),
        (
            format!("{SYMMETRIC}2 2 1\n1 2 1\n"),
            "q.mtx:3: entry (1, 2) is above the diagonal of a symmetric file",
        ),
        (format!("{SYMMETRIC}2 2 1\n1 1 NaN\n"), "q.mtx:3: value NaN is not finite"),
        (format!("{GENERAL}2 2 2\n1 1 1\n2 1 -inf\n"), "q.mtx:4: value -inf is not finite"),
        (
            format!("{GENERAL}2 2 3\n1 1 1\n2 2 1\n2 1 0.5\n"),
            "q.mtx:5: entry (2, 1) is 0.5, but entry (1, 2) is 0.0: Q is symmetric. A file with one triangle alone is the \
             lower one, with the header symmetric",
        ),
        (
            format!("{GENERAL}2 2 4\n1 2 0.5\n1 1 1\n2 2 1\n2 1 0.500001\n"),
            "q.mtx:6: entry (2, 1) is 0.500001, but entry (1, 2) is 0.5: Q is symmetric. A file with one triangle alone is \
             the lower one, with the header symmetric",
        ),
        (
            format!("{array}2 3\n"),
            "q.mtx:2: a precision matrix is square, but this has 2 rows and 3 columns",
        ),
        (format!("{array}2 2 4\n"), "q.mtx:2: rows and columns of an array must be two whole numbers"),
        (
            format!("{array}2 2\n1\n0\n0\n"),
            "q.mtx: values of the array are missing: it ends in column 2 of 2",
        ),
        (
            format!("{array}2 2\n1\n0\n0\n1\n7\n"),
            "q.mtx:7: more values than an array of 2 rows and columns has",
        ),
        (format!("{array}2 2\n1\n0\nnan\n1\n"), "q.mtx:5: value nan is not finite"),
    ];
    for (text, message) in cases {
        folder.write("q.mtx", &text);
        assert_eq!(folder.fails(&words, 1), message, "{text:?}");
    }
    folder.write("q.mtx", format!("{SYMMETRIC}2 2 2\n1 1 1\n2 2 1\n"));
    assert_eq!(
        folder.fails(&words, 14),
        "q.mtx: refusal 4: Q has 2 cells, the factor 24"
    );
    folder.write("q.mtx", format!("{SYMMETRIC}4097 4097 0\n"));
    assert!(folder.fails(&words, 11).starts_with("q.mtx: refusal 1: too large"));
    // Two triangles that were summed in different orders.
    folder.write(
        "q.mtx",
        format!("{GENERAL}2 2 4\n1 1 4\n2 1 1.0000000000000002\n1 2 1\n2 2 4\n"),
    );
    folder.write(
        "l.mtx",
        format!("{GENERAL}2 2 3\n1 1 2\n2 1 0.5\n2 2 {:?}\n", 3.75f64.sqrt()),
    );
    folder.prints(&["l.mtx", "--precision", "q.mtx"]);
}

#[test]
fn usage_of_precision_and_order() {
    let folder = Folder::new("precision-usage");
    for (words, message) in [
        (
            &["--precision=Q.mtx", "--whole"][..],
            "--precision without a factor does not go with --whole",
        ),
        (
            &["--precision=Q.mtx", "--pivots=D.txt"],
            "--precision without a factor does not go with --pivots",
        ),
        (
            &["--precision=Q.mtx", "--place-to-cell=o.txt"],
            "--precision without a factor does not go with --place-to-cell",
        ),
        (&["--demo", "--precision=Q.mtx"], "--demo does not go with --precision"),
        (
            &["f.mtx", "--permutation=o.txt", "--cell-to-place=o.txt"],
            "--cell-to-place is given twice",
        ),
        (
            &["f.mtx", "--permutation=o.txt", "--place-to-cell=o.txt"],
            "--place-to-cell does not go with --cell-to-place",
        ),
    ] {
        assert_eq!(folder.fails(words, 2), format!("{message}; try --help"), "{words:?}");
    }
    let help = folder.prints(&["--help"]);
    for words in [
        "  --precision FILE\n",
        "  --cell-to-place FILE\n",
        "  --place-to-cell FILE\n",
        "CHOLMOD  ",
    ] {
        assert!(help.contains(words), "{words}");
    }
}

/// One command from Q to the page, beside a dense inverse.
#[test]
fn from_q_alone() {
    let folder = Folder::new("precision-alone");
    let q = matern(40, 40);
    folder.write("Q.mtx", file(SYMMETRIC, &q, |row, column| row >= column));
    let words = ["--precision", "Q.mtx", "--grid", "40x40", "--html", "map.html", "--csv"];
    if !has_cholmod("a map from Q alone") {
        let message = folder.fails(&words, 2);
        assert!(
            message.contains("(Debian: apt-get install libsuitesparse-dev)"),
            "{message}"
        );
        return;
    }
    let found = printed(&folder.prints(&words));
    close(&found, &variances(&q));
    let page = folder.read("map.html");
    assert!(page.contains("<title>Variances of Q.mtx</title>"));
    assert!(page.contains("<p id=\"checked\">The factor is checked against Q.</p>"));
    assert_eq!(page.matches("data-coverage=\"computed\"").count(), 1600);
    // With requests, entries and chains, which are in the order of the cells.
    folder.write("last.txt", "1600 1600\n");
    let some = folder.prints(&["--precision", "Q.mtx", "--requests", "last.txt", "--csv"]);
    let last = some
        .lines()
        .last()
        .unwrap()
        .split(',')
        .nth(1)
        .unwrap()
        .parse::<f64>()
        .unwrap();
    close(&[last], &found[1599..]);
    folder.prints(&["--precision", "Q.mtx", "--why", "1,1"]);
    assert_eq!(
        folder.fails(&["--precision", "Q.mtx", "--grid", "4x4", "--svg", "map.svg"], 2),
        "--grid 4x4 does not have the factor's 1600 cells; try --help"
    );
}

#[test]
fn a_matrix_that_is_not_positive_definite() {
    if !has_cholmod("a matrix that is not positive definite") {
        return;
    }
    let folder = Folder::new("precision-definite");
    let mut q = matern(6, 4);
    q[16][16] = -1.0;
    folder.write("Q.mtx", file(SYMMETRIC, &q, |row, column| row >= column));
    let message = folder.fails(&["--precision", "Q.mtx"], 1);
    let told =
        "Q.mtx: Q is not positive definite, so it has no factor and no variances: CHOLMOD comes upon it at cell ";
    let cell = message.strip_prefix(told).unwrap().parse::<usize>().unwrap();
    assert!((1..=24).contains(&cell));
    // Alone, the cell is the one at fault.
    folder.write("Q.mtx", format!("{SYMMETRIC}3 3 3\n1 1 1\n2 2 -1\n3 3 1\n"));
    assert_eq!(folder.fails(&["--precision", "Q.mtx"], 1), format!("{told}2"));
    // A diagonal that is not stored is 0.
    folder.write("Q.mtx", format!("{SYMMETRIC}2 2 1\n1 1 1\n"));
    assert_eq!(folder.fails(&["--precision", "Q.mtx"], 1), format!("{told}2"));
    // No cells at all.
    folder.write("Q.mtx", format!("{SYMMETRIC}0 0 0\n"));
    assert_eq!(
        folder.prints(&["--precision", "Q.mtx", "--csv"]),
        "cell,variance,covered,checked\n"
    );
}

/// Each mistake with files that CHOLMOD has written, and the right ways.
#[test]
fn mistakes_with_files_of_cholmod() {
    if !has_cholmod("mistakes with files of CHOLMOD") {
        return;
    }
    let folder = Folder::new("precision-cholmod");
    let program = folder.0.join("export");
    let source = concat!(env!("CARGO_MANIFEST_DIR"), "/tests/command/cholmod.c");
    let mut compiler = Command::new("cc");
    compiler.args(["-std=c99", "-pedantic", "-Wall", "-Wextra", "-Werror", source, "-o"]);
    assert!(compiler.arg(&program).arg("-lcholmod").status().unwrap().success());
    let q = matern(9, 7);
    folder.write("Q.mtx", file(SYMMETRIC, &q, |row, column| row >= column));
    assert!(Command::new(&program)
        .current_dir(&folder.0)
        .status()
        .unwrap()
        .success());
    let expected = variances(&q);
    // The right ways.
    let right = ["L.mtx", "--place-to-cell", "P.txt", "--precision", "Q.mtx", "--csv"];
    close(&printed(&folder.prints(&right)), &expected);
    close(&printed(&folder.prints(&["--precision", "Q.mtx", "--csv"])), &expected);
    // The wrong ones: the factor, its order, and what is said with Q.
    let order = ["--place-to-cell", "P.txt"];
    let reversed = ["--permutation", "P.txt"];
    for (factor, order, status, with_q) in [
        ("U.mtx", &order[..], 1, "this looks like an upper factor"),
        ("Q.mtx", &[], 5, "the entries of Q itself"),
        ("LD.mtx", &order, 5, "with D on its diagonal"),
        ("L.mtx", &reversed, 5, "read the other way"),
        ("L.mtx", &[], 5, "No order is given"),
    ] {
        let map = ["--precision", "Q.mtx", "--grid", "9x7", "--html", "map.html"];
        let message = folder.fails(&[&[factor], order, &map].concat(), status);
        assert!(message.contains(with_q), "{message}");
        assert!(!folder.0.join("map.html").exists());
        // Without it the numbers are wrong.
        let found = printed(&folder.prints(&[&[factor, "--csv"], order].concat()));
        let pairs = found.iter().zip(&expected);
        assert!(pairs
            .into_iter()
            .any(|(found, expected)| (found / expected - 1.0).abs() > 0.01));
    }
}
