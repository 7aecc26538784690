//! Cells that are not all of a grid, and the places of cells.

use crate::document::{attribute, cells, elements};
use crate::{Folder, F2};

/// L of L times D times its transpose, the same matrix as that of `F2`.
const PIVOTS: &str = "1\n1\n";

const WHOLE: &str = "%%MatrixMarket matrix coordinate integer general\n2 2 3\n1 1 1\n2 1 2\n2 2 1\n";

#[test]
fn rows_of_water_and_land() {
    let folder = Folder::new("mask-rows");
    folder.write("f2.mtx", F2);
    folder.write("whole.mtx", WHOLE);
    folder.write("pivots.txt", PIVOTS);
    folder.write("joined.txt", "% north\n001\n\n# south\n100\n");
    folder.write("apart.txt", "0 0 1\r\n 1\t0 0\r\n");
    folder.write("groups.txt", "00 1\n1 0 0");
    let run = |words: &[&str]| {
        let csv = folder.prints(&[words, &["--csv", "--svg", "map.svg", "--html", "map.html"]].concat());
        (csv, folder.read("map.svg"), folder.read("map.html"))
    };
    let (csv, picture, page) = run(&["f2.mtx", "--mask", "joined.txt"]);
    assert_eq!(
        csv,
        "cell,column,row,variance,covered,deviation\n1,3,1,5.0,yes,2.23606797749979\n2,1,2,1.0,yes,1.0\n"
    );
    elements(&picture);
    let told = cells(&picture)
        .into_iter()
        .map(|cell| {
            cell.split_once("<title>")
                .unwrap()
                .1
                .split_once('<')
                .unwrap()
                .0
                .to_string()
        })
        .collect::<Vec<_>>();
    assert_eq!(
        told,
        [
            "column 1, row 1: land",
            "column 2, row 1: land",
            "column 3, row 1: 5.0",
            "column 1, row 2: 1.0",
            "column 2, row 2: land",
            "column 3, row 2: land",
        ]
    );
    assert!(cells(&picture)[0].contains("fill=\"url(#land)\"") && picture.contains(">land</text>"));
    let of = |page: &str, name: &str| {
        let found = cells(page).into_iter();
        found
            .map(|cell| attribute(cell, name).unwrap_or("").to_string())
            .collect::<Vec<_>>()
    };
    assert_eq!(of(&page, "data-cell"), ["", "", "1", "2", "", ""]);
    assert_eq!(of(&page, "data-variance"), ["", "", "5.0", "1.0", "", ""]);
    assert!(page.contains("2 of 2 cells computed, <strong>0 not computed</strong>"));
    assert!(page.contains("land: 4 cells</li>"));
    for mask in [&["--mask", "apart.txt"][..], &["--mask", "groups.txt", "--grid", "3x2"]] {
        assert_eq!(
            run(&[&["f2.mtx"], mask].concat()),
            (csv.clone(), picture.clone(), page.clone())
        );
    }
    // In whole numbers and with pivots too.
    let (exact, map, _) = run(&["--whole", "whole.mtx", "--mask", "joined.txt"]);
    assert_eq!(
        exact,
        "cell,column,row,exact_variance,covered,deviation\n1,3,1,5,yes,2.23606797749979\n2,1,2,1,yes,1.0\n"
    );
    assert_eq!(cells(&map), cells(&picture));
    let (pivots, map, _) = run(&["f2.mtx", "--pivots", "pivots.txt", "--mask", "joined.txt"]);
    assert_eq!((pivots, cells(&map)), (csv, cells(&picture)));
}

/// Cell i of the factor is where line i says, and water that is not computed is not land.
#[test]
fn a_list_of_cells() {
    let folder = Folder::new("mask-list");
    folder.write("f2.mtx", F2);
    folder.write("pairs.txt", "2 2\n");
    folder.write("list.txt", "% column row\n2 2\n1 1\n");
    let words = [
        "f2.mtx",
        "--grid",
        "2x2",
        "--mask",
        "list.txt",
        "--requests",
        "pairs.txt",
    ];
    let csv = folder.prints(&[&words[..], &["--csv"]].concat());
    assert_eq!(
        csv,
        "cell,column,row,variance,covered,deviation\n1,2,2,,no,\n2,1,1,1.0,yes,1.0\n"
    );
    folder.prints(&[&words[..], &["--html", "map.html", "--svg", "map.svg"]].concat());
    let page = folder.read("map.html");
    let of = |name: &str| {
        let found = cells(&page).into_iter();
        found
            .map(|cell| attribute(cell, name).unwrap_or("").to_string())
            .collect::<Vec<_>>()
    };
    assert_eq!(of("data-cell"), ["2", "", "", "1"]);
    assert_eq!(of("data-coverage"), ["computed", "land", "land", "not computed"]);
    // The table is in the order of the cells.
    let table =
        "<tr><th scope=\"row\">1</th><td>2</td><td>2</td><td>not computed</td><td>none</td><td>none</td></tr>\n\
                 <tr><th scope=\"row\">2</th><td>1</td><td>1</td><td>computed</td><td>1.0</td><td>1.00</td></tr>\n";
    assert!(page.contains(table));
    assert_eq!(folder.read("map.svg").matches(": not computed</title>").count(), 1);
    // A chain is on the map where its cells are.
    let chain = folder.prints(&[
        "f2.mtx", "--grid", "2x2", "--mask", "list.txt", "--why", "1,2", "--svg", "map.svg",
    ]);
    assert!(
        chain.ends_with("cell column row pairs\n1 2 2 1-2\n2 1 1 2\n"),
        "{chain}"
    );
    // Without a mask there are no places.
    for words in [
        &["f2.mtx", "--csv"][..],
        &["f2.mtx", "--grid", "1x2", "--svg", "map.svg", "--csv"],
    ] {
        assert_eq!(folder.prints(words), "cell,variance,covered\n1,5.0,yes\n2,1.0,yes\n");
    }
}

/// A deviation is empty where there is none.
#[test]
fn deviations() {
    let folder = Folder::new("mask-deviations");
    folder.write("wide.mtx", crate::WIDE);
    folder.write("m.txt", "111\n");
    assert_eq!(
        folder.prints(&["wide.mtx", "--mask", "m.txt", "--csv", "--limit", "9"]),
        "cell,column,row,variance,covered,deviation\n1,1,1,0.0,yes,0.0\n2,2,1,inf,yes,\n3,3,1,1.0,yes,1.0\n"
    );
}

#[test]
fn masks_that_are_refused() {
    let folder = Folder::new("mask-refused");
    folder.write("f2.mtx", F2);
    for (text, grid, status, message) in [
        (
            "111\n",
            None,
            1,
            "m.txt: the mask has 3 cells of water, the factor 2 cells",
        ),
        (
            "100\n",
            None,
            1,
            "m.txt: the mask has 1 cell of water, the factor 2 cells",
        ),
        (
            "000\n",
            None,
            1,
            "m.txt: the mask has 0 cells of water, the factor 2 cells",
        ),
        ("", None, 1, "m.txt: the mask has no rows"),
        ("% 11\n\n", Some("2x1"), 1, "m.txt: the mask has no rows"),
        ("101\n\n01\n", None, 1, "m.txt:3: the row has 2 cells, the first row 3"),
        ("11\n1\n", None, 1, "m.txt:2: the row has 1 cell, the first row 2"),
        (
            "110\n1 0 2\n",
            None,
            1,
            "m.txt:2: '2' is neither 0 nor 1: a mask has rows of 0 and 1, or two numbers on every line",
        ),
        (
            "1 1\n2 1 1\n",
            Some("2x2"),
            1,
            "m.txt:2: '2' is neither 0 nor 1: a mask has rows of 0 and 1, or two numbers on every line",
        ),
        (
            "..##\n",
            None,
            1,
            "m.txt:1: '.' is neither 0 nor 1: a mask has rows of 0 and 1, or two numbers on every line",
        ),
        (
            "\u{e9}1\n",
            None,
            1,
            "m.txt:1: '\u{e9}' is neither 0 nor 1: a mask has rows of 0 and 1, or two numbers on every line",
        ),
        (
            "101\n",
            Some("1x3"),
            2,
            "--grid 1x3 is not the 3x1 of the mask m.txt; try --help",
        ),
        (
            "1 2\n1 1\n",
            None,
            2,
            "--mask m.txt is a list of cells, which needs --grid; try --help",
        ),
        ("1 2\n3 1\n", Some("2x2"), 1, "m.txt:2: column 3 is not from 1 to 2"),
        ("# place\n1 3\n", Some("2x2"), 1, "m.txt:2: row 3 is not from 1 to 2"),
        (
            "1 2\n1 1\n1 2\n",
            Some("2x2"),
            1,
            "m.txt:3: the cell of column 1 and row 2 is there twice, first in line 1",
        ),
        ("0 2\n1 1\n", Some("2x2"), 1, "m.txt:1: 0 is not a whole number from 1"),
        (
            "2 two\n1 1\n",
            Some("2x2"),
            1,
            "m.txt:1: two is not a whole number from 1",
        ),
        (
            "1 2\n",
            Some("2x2"),
            1,
            "m.txt: the mask has 1 cell of water, the factor 2 cells",
        ),
        (
            "1 2\n1 1\n",
            Some("2000x1000"),
            2,
            "--grid 2000x1000 has more than 1048576 cells; try --help",
        ),
    ] {
        folder.write("m.txt", text);
        let grid = grid.map_or(Vec::new(), |grid| vec!["--grid", grid]);
        let words = [&["f2.mtx", "--mask", "m.txt", "--svg", "map.svg"], &grid[..]].concat();
        assert_eq!(folder.fails(&words, status), message, "{text}");
    }
    let wide = format!("{}\n", "0".repeat(1025)).repeat(1024);
    folder.write("m.txt", wide);
    assert_eq!(
        folder.fails(&["f2.mtx", "--mask", "m.txt", "--csv"], 1),
        "m.txt: the mask has 1049600 cells, which is more than 1048576"
    );
    folder.write("m.txt", b"1\xff0\n1\n");
    assert_eq!(
        folder.fails(&["f2.mtx", "--mask", "m.txt", "--csv"], 1),
        "m.txt:1: the line is not text"
    );
    assert!(folder
        .fails(&["f2.mtx", "--mask", "no.txt", "--csv"], 1)
        .starts_with("no.txt: "));
    assert!(!folder.0.join("map.svg").exists());
}
