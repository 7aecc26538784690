//! Variances along a track, and the track on maps.

use crate::document::elements;
use crate::Folder;

/// The factor with columns (1, -3), (1, 1) and (1): its inverse is (19, 6, -3; 6, 2, -1; -3, -1, 1).
const THREE_COLUMNS: &str =
    "%%MatrixMarket matrix coordinate integer general\n3 3 5\n1 1 1\n2 1 -3\n2 2 1\n3 2 1\n3 3 1\n";

fn words<'a>(width: &'a str, more: &[&'a str]) -> Vec<&'a str> {
    let mut words = vec!["--whole", "w.mtx", "--track", "track.txt", "--width", width];
    words.extend(more);
    words
}

fn folder(name: &str) -> Folder {
    let folder = Folder::new(name);
    folder.write("w.mtx", THREE_COLUMNS);
    folder.write("track.txt", "% from the sea\n3\n2\n\n1\n1\n# and back\n2\n");
    folder
}

#[test]
fn variances_of_runs() {
    let folder = folder("track");
    assert_eq!(
        folder.prints(&words("2", &[])),
        "Complete: 5 pairs requested, 5 computed, 5 in the factor, limit 50\n\
         Exact: computed in whole numbers, and nothing was rounded.\n\
         4 runs of 2 cells, the largest variance 76: run 3, from cell 1 to cell 1\n\
         run first last variance\n1 3 2 1\n2 2 1 33\n3 1 1 76\n4 1 2 33\n"
    );
    let lines = "run,first,last,exact_variance\n1,3,2,1\n2,2,1,33\n3,1,1,76\n4,1,2,33\n";
    assert_eq!(folder.prints(&words("2", &["--csv"])), lines);
    assert_eq!(
        folder.prints(&words("5", &["--csv"])),
        "run,first,last,exact_variance\n1,3,2,117\n"
    );
    assert!(folder
        .prints(&words("1", &[]))
        .contains("\n5 runs of 1 cell, the largest variance 19: run 3, from cell 1 to cell 1\n"));
    // Cell 1 is the factor's third column.
    folder.write("order.txt", "3\n2\n1\n");
    folder.write("track.txt", "1\n2\n3\n3\n2\n");
    assert_eq!(
        folder.prints(&words("2", &["--csv", "--permutation", "order.txt"])),
        lines
            .replace(",3,2,1\n", ",1,2,1\n")
            .replace(",2,1,33", ",2,3,33")
            .replace(",1,1,76", ",3,3,76")
            .replace("4,1,2", "4,3,2")
    );
    assert_eq!(
        folder.fails(&words("2", &["--limit", "4", "--permutation", "order.txt"]), 3),
        "ClosureTooLarge: the requests need more than 4 entries, so none is given; raise --limit"
    );
}

#[test]
fn malformed_and_refused() {
    let folder = folder("track-refused");
    let fails = |track: &str, width: &str, status: i32, message: &str| {
        folder.write("track.txt", track);
        assert_eq!(folder.fails(&words(width, &[]), status), message);
    };
    fails(
        "1 2\n",
        "1",
        1,
        "track.txt:1: a line has one cell, but this one has 2 words",
    );
    fails("1\n0\n", "1", 1, "track.txt:2: 0 is not a whole number from 1");
    fails("", "1", 32, "track.txt: refusal 22: the track has no cells");
    fails(
        "1\n4\n",
        "0",
        32,
        "track.txt: refusal 22: the width 0 is not from 1 to 2",
    );
    fails(
        "1\n4\n",
        "3",
        32,
        "track.txt: refusal 22: the width 3 is not from 1 to 2",
    );
    let long = "4\n".repeat(1500);
    fails(
        &long,
        "1025",
        32,
        "track.txt: refusal 22: the width 1025 is not from 1 to 1024",
    );
    fails(
        "1\n%\n4\n",
        "2",
        18,
        "track.txt:3: refusal 8: cell 4 is not from 1 to 3",
    );
    // An entry of 2^40 is accepted.
    let steep = |value: i64| {
        folder.write(
            "w.mtx",
            THREE_COLUMNS
                .replace("-3", &value.to_string())
                .replace("3 2 1", "3 2 0"),
        )
    };
    steep(1 << 20);
    fails(
        "2\n1\n",
        "2",
        30,
        "track.txt: refusal 20: the entry of cells 1 and 1 is 1099511627777, which is beyond 2^40 in size",
    );
    steep((1 << 20) - 1);
    folder.prints(&words("2", &[]));
}

#[test]
fn the_track_on_maps() {
    let folder = folder("track-maps");
    folder.prints(&words("2", &["--grid=3x1", "--svg=map.svg", "--html=map.html"]));
    let summary = "4 runs of 2 cells, the largest variance 76: run 3, from cell 1 to cell 1";
    let picture = folder.read("map.svg");
    elements(&picture);
    for text in [
        "<title>Exact variances of w.mtx along track.txt</title>",
        &format!(">{summary}</text>"),
        "<title>column 1, row 1: 19.0, run 3, variance 76; run 4, variance 33</title>",
        "<title>column 2, row 1: 2.0, run 2, variance 33</title>",
        "<title>column 3, row 1: 1.0, run 1, variance 1</title>",
        ">run of largest variance</text>",
    ] {
        assert!(picture.contains(text), "{text}");
    }
    let paths = |class: &str| picture.matches(&format!("<path class=\"{class}\"")).count();
    // On the map and in the legend.
    assert_eq!((paths("largest"), paths("track")), (2, 4));
    let page = folder.read("map.html");
    for text in [
        "data-runs=\"run 3, variance 76; run 4, variance 33\"",
        "<dt>run from here</dt>",
        &format!("<p>{summary}.</p>"),
        "<tr><th scope=\"row\">3</th><td>1</td><td>1</td><td>76</td></tr>",
        "<ul id=\"track-legend\">",
        "<g id=\"track\"",
    ] {
        assert!(page.contains(text), "{text}");
    }
    // A run of one cell is a point, and the last cell of a longer track begins none.
    folder.write("track.txt", "3\n2\n");
    folder.prints(&words("2", &["--grid=1x3", "--svg=map.svg"]));
    let picture = folder.read("map.svg");
    assert!(picture.contains("row 2: 2.0, on the track, no run begins here</title>"));
    assert!(picture.contains("row 1: not computed</title>"));
    folder.prints(&words("1", &["--grid=1x3", "--svg=map.svg"]));
    elements(&folder.read("map.svg"));
    // Other maps have none of it.
    folder.prints(&["--whole", "w.mtx", "--grid=3x1", "--svg=map.svg", "--html=map.html"]);
    assert!(!folder.read("map.svg").contains("track"));
    assert!(!folder.read("map.html").contains("<g id=\"track\""));
}
