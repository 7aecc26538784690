//! Factors of whole numbers: exact answers, and what is told where there are none.

use crate::document::elements;
use crate::{Folder, F2, F3};

const HEADER: &str = "%%MatrixMarket matrix coordinate integer general";

/// The factor with columns (1, -3) and (1).
fn two_columns() -> String {
    format!("{HEADER}\n2 2 3\n1 1 1\n2 1 -3\n2 2 1\n")
}

#[test]
fn the_answer_says_that_it_is_exact() {
    let folder = Folder::new("whole");
    folder.write("w.mtx", two_columns());
    let counts = "Complete: 2 pairs requested, 3 computed, 3 in the factor, limit 30\n\
                  Exact: computed in whole numbers, and nothing was rounded.\n";
    assert_eq!(
        folder.prints(&["--whole", "w.mtx"]),
        format!("{counts}2 of 2 cells computed, the least 1\n0 of 2 cells not computed\ncell variance\n1 10\n2 1\n")
    );
    assert_eq!(
        folder.prints(&["--whole", "w.mtx", "--entries"]),
        format!("{counts}row column value\n1 1 10\n2 1 3\n2 2 1\n")
    );
    assert_eq!(
        folder.prints(&["--whole", "w.mtx", "--csv"]),
        "cell,exact_variance,covered\n1,10,yes\n2,1,yes\n"
    );
    assert_eq!(
        folder.prints(&["--whole", "w.mtx", "--csv", "--entries"]),
        "row,column,exact_value\n1,1,10\n2,1,3\n2,2,1\n"
    );
}

/// Without `--whole` the same file is computed in floats, and its answer does not say that it is exact.
#[test]
fn floats_say_nothing_of_the_kind() {
    let folder = Folder::new("whole-floats");
    folder.write("f3.mtx", F3);
    assert!(!folder.prints(&["f3.mtx"]).contains("Exact"));
    let floats = folder.prints(&["f3.mtx", "--entries", "--csv"]);
    let wholes = folder.prints(&["--whole", "f3.mtx", "--entries", "--csv"]);
    assert_eq!(
        wholes,
        "row,column,exact_value\n1,1,14\n2,1,-2\n3,1,-3\n2,2,1\n3,2,0\n3,3,1\n"
    );
    // A float has the sign of its zero too.
    assert_eq!(
        floats,
        wholes
            .replace("exact_", "")
            .replace('\n', ".0\n")
            .replace("value.0", "value")
            .replace(",0.0", ",-0.0")
    );
}

#[test]
fn requests_order_limit_and_maps() {
    let folder = Folder::new("whole-options");
    folder.write("w.mtx", two_columns());
    folder.write("last.txt", "2 2\n");
    assert_eq!(
        folder.prints(&["--whole", "w.mtx", "--requests", "last.txt", "--csv"]),
        "cell,exact_variance,covered\n1,,no\n2,1,yes\n"
    );
    // Cell 1 is the factor's second column.
    folder.write("order.txt", "2\n1\n");
    assert_eq!(
        folder.prints(&["--whole", "w.mtx", "--permutation", "order.txt", "--csv"]),
        "cell,exact_variance,covered\n1,1,yes\n2,10,yes\n"
    );
    assert_eq!(
        folder.prints(&["--whole", "w.mtx", "--permutation", "order.txt", "--csv", "--entries"]),
        "row,column,exact_value\n1,1,1\n2,1,3\n2,2,10\n"
    );
    assert_eq!(
        folder.fails(&["--whole", "w.mtx", "--limit", "2"], 3),
        "ClosureTooLarge: the requests need more than 2 entries, so none is given; raise --limit"
    );
    let map = ["--whole", "w.mtx", "--grid=2x1", "--svg=map.svg", "--html=map.html"];
    folder.prints(&map);
    let document = folder.read("map.svg");
    elements(&document);
    assert!(document.contains("<title>Exact variances of w.mtx</title>"));
    assert!(document.contains("column 1, row 1: 10.0"));
    assert!(folder.read("map.html").contains("Exact variances of w.mtx"));
    assert_eq!(
        folder.fails(&["--whole", "w.mtx", "--grid=2x2", "--svg=other.svg"], 2),
        "--grid 2x2 does not have the factor's 2 cells; try --help"
    );
}

/// 2^53 itself is computed with, and what is beyond it told by its line or its column.
#[test]
fn numbers_beyond() {
    let folder = Folder::new("whole-beyond");
    let write = |entries: &str| {
        let count = entries.lines().count();
        folder.write("w.mtx", format!("{HEADER}\n3 3 {count}\n{entries}"));
    };
    let words = ["--whole", "w.mtx", "--csv", "--entries"];
    let largest = "9007199254740992";
    folder.write("last.txt", "3 3\n");
    let last = ["--whole", "w.mtx", "--requests", "last.txt"];
    write(&format!(
        "1 1 1\n2 1 {largest}\n2 2 1\n3 1 -{largest}\n3 3 1\n1 3 -9223372036854775808\n"
    ));
    folder.prints(&last);
    // Its square is of column 1, and column 2 has no number beyond it.
    assert_eq!(
        folder.fails(&words, 30),
        "w.mtx: refusal 20: in column 1 of the factor a product, a running sum or an entry of the recurrence is beyond 2^53 in \
         size; in later columns none is"
    );
    // An entry counts wherever it is, also where nothing that is asked for needs it; so does one that is negative.
    for value in ["9007199254740993", "-9007199254740993", "-9223372036854775808"] {
        write(&format!("2 2 1\n2 1 {value}\n1 1 1\n3 3 1\n"));
        let message =
            format!("w.mtx:4: refusal 20: entry (2, 1) of the factor is {value}, which is beyond 2^53 in size");
        assert_eq!(folder.fails(&words, 30), message);
        assert_eq!(folder.fails(&last, 30), message);
        // Above the limit no size is looked at.
        folder.fails(&["--whole", "w.mtx", "--limit", "3"], 3);
    }
    // Column 2 is where the recurrence, which begins with the last one, comes upon it.
    write("1 1 1\n2 1 2\n2 2 1\n3 2 134217728\n3 3 1\n");
    assert_eq!(
        folder.fails(&words, 30),
        "w.mtx: refusal 20: in column 2 of the factor a product, a running sum or an entry of the recurrence is beyond 2^53 in \
         size; in later columns none is"
    );
    folder.prints(&last);
    write("1 1 1\n2 1 2\n2 2 1\n3 2 67108864\n3 3 1\n");
    assert_eq!(
        folder.fails(&words, 30),
        "w.mtx: refusal 20: in column 1 of the factor a product, a running sum or an entry of the recurrence is beyond 2^53 in \
         size; in later columns none is"
    );
}

#[test]
fn factors_that_are_not_whole() {
    let folder = Folder::new("whole-refused");
    folder.write("f2.mtx", F2);
    assert_eq!(
        folder.fails(&["--whole", "f2.mtx"], 1),
        "f2.mtx:1: with --whole values must be integer, not real"
    );
    let message = |entries: &str, status: i32| {
        let count = entries.lines().count();
        folder.write("w.mtx", format!("{HEADER}\n3 3 {count}\n{entries}"));
        folder.fails(&["--whole", "w.mtx"], status)
    };
    assert_eq!(
        message("1 1 9223372036854775808\n", 1),
        "w.mtx:3: value 9223372036854775808 is not a whole number of 64 bits"
    );
    assert_eq!(
        message("1 1 1.0\n", 1),
        "w.mtx:3: value 1.0 is not a whole number of 64 bits"
    );
    // 19 in any column, before 6.
    assert_eq!(
        message("3 3 -1\n2 2 1\n", 29),
        "w.mtx:3: refusal 19: entry (3, 3) of the factor is -1, and a diagonal must be 1"
    );
    for (entries, column) in [("2 1 5\n", 1), ("1 1 1\n3 3 1\n2 2 0\n", 2), ("2 2 1\n1 1 1\n", 3)] {
        assert_eq!(
            message(entries, 16),
            format!("w.mtx: refusal 6: column {column} of the factor has no diagonal entry")
        );
    }
    folder.write("w.mtx", format!("{HEADER}\n4097 4097 0\n"));
    assert!(folder
        .fails(&["--whole", "w.mtx"], 11)
        .starts_with("w.mtx: refusal 1: "));
}
