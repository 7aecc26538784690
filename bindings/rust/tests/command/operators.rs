//! Operators and their row pairs.

use crate::{Folder, F2};

/// Rows: the sum of both cells, nothing, and three times cell 2.
const SUMS: &str = "\
%%MatrixMarket matrix coordinate integer general
% rows, cells, weights
3 2 3
3 2 3
1 1 1
1 2 1
";

/// One row: cell 1 less twice cell 2.
const LESS: &str = "%%MatrixMarket matrix coordinate real general\n1 2 2\n1 1 1\n1 2 -2\n";

#[test]
fn operators() {
    let folder = Folder::new("operators");
    folder.write("f2.mtx", F2);
    folder.write("sums.mtx", SUMS);
    folder.write("less.mtx", LESS);
    assert_eq!(
        folder.prints(&["f2.mtx", "--operator", "sums.mtx"]),
        "Complete: 3 pairs requested, 3 computed, 3 in the factor, limit 30\nrow variance\n1 2.0\n2 0.0\n3 9.0\n"
    );
    assert_eq!(
        folder.prints(&["f2.mtx", "--operator=less.mtx", "--csv"]),
        "row,variance\n1,17.0\n"
    );
    let both = ["f2.mtx", "--operator", "sums.mtx", "--with", "less.mtx"];
    assert_eq!(
        folder.prints(&both),
        "Complete: 3 pairs requested, 3 computed, 3 in the factor, limit 30\n\
         row with covariance\n1 1 5.0\n2 1 0.0\n3 1 -12.0\n"
    );
    // The rows of the pairs, in their order and with repeats.
    folder.write("pairs.txt", "% row, with\n3 1\n\n1 1\n3 1\n");
    assert_eq!(
        folder.prints(&[&both[..], &["--pairs", "pairs.txt", "--csv"]].concat()),
        "row,with,covariance\n3,1,-12.0\n1,1,5.0\n3,1,-12.0\n"
    );
    folder.write("pairs.txt", "# none\n");
    assert_eq!(
        folder.prints(&[&both[..], &["--pairs", "pairs.txt"]].concat()),
        "Complete: 0 pairs requested, 0 computed, 3 in the factor, limit 30\nrow with covariance\n"
    );
    // One file for both: the variances stand among the covariances.
    assert_eq!(
        folder.prints(&["f2.mtx", "--operator", "sums.mtx", "--with", "sums.mtx", "--csv"]),
        "row,with,covariance\n1,1,2.0\n1,2,0.0\n1,3,-3.0\n2,1,0.0\n2,2,0.0\n2,3,0.0\n3,1,-3.0\n3,2,0.0\n3,3,9.0\n"
    );
    // Cell 1 is the factor's second column.
    folder.write("order.txt", "2\n1\n");
    assert_eq!(
        folder.prints(&[&both[..], &["--permutation", "order.txt", "--csv"]].concat()),
        "row,with,covariance\n1,1,-7.0\n2,1,0.0\n3,1,-36.0\n"
    );
    assert_eq!(
        folder.prints(&[
            "f2.mtx",
            "--operator",
            "less.mtx",
            "--permutation",
            "order.txt",
            "--csv"
        ]),
        "row,variance\n1,29.0\n"
    );
}

#[test]
fn malformed_operators() {
    let folder = Folder::new("malformed-operators");
    folder.write("f2.mtx", F2);
    folder.write("sums.mtx", SUMS);
    folder.write("less.mtx", LESS);
    let head = "%%MatrixMarket matrix coordinate real general\n";
    for (text, status, message) in [
        (
            "%%MatrixMarket matrix coordinate real symmetric\n2 2 0\n".to_string(),
            1,
            "a.mtx:1: an operator must be general, not symmetric",
        ),
        (format!("{head}1 2 1\n2 1 1\n"), 1, "a.mtx:3: row 2 is not from 1 to 1"),
        (
            format!("{head}1 2 1\n1 3 1\n"),
            1,
            "a.mtx:3: column 3 is not from 1 to 2",
        ),
        (format!("{head}1 2 1\n1 1 inf\n"), 1, "a.mtx:3: value inf is not finite"),
        (
            format!("{head}1 2 2\n1 1 1\n1 1 1\n"),
            1,
            "a.mtx:4: entry (1, 1) is there twice, first in line 3",
        ),
        (
            format!("{head}1 3 0\n"),
            14,
            "a.mtx: refusal 4: the operator has 3 columns, the factor 2 cells",
        ),
    ] {
        folder.write("a.mtx", text);
        assert_eq!(folder.fails(&["f2.mtx", "--operator", "a.mtx"], status), message);
        assert_eq!(
            folder.fails(&["f2.mtx", "--operator", "sums.mtx", "--with", "a.mtx"], status),
            message
        );
    }
    let large = redstartgilt::Error::TooLarge;
    for size in ["4097 2 0", "4097 3 0", "18446744073709551615 2 1\n4098 1 1"] {
        folder.write("a.mtx", format!("{head}{size}\n"));
        assert_eq!(
            folder.fails(&["f2.mtx", "--operator", "a.mtx"], 11),
            format!("a.mtx: {large}")
        );
    }
    let both = [
        "f2.mtx",
        "--operator",
        "sums.mtx",
        "--with",
        "less.mtx",
        "--pairs",
        "pairs.txt",
    ];
    for (text, status, message) in [
        (
            "1 1\n4 1\n",
            19,
            "pairs.txt:2: refusal 9: row 4 of --operator is not from 1 to 3",
        ),
        (
            "1 2\n",
            19,
            "pairs.txt:1: refusal 9: row 2 of --with is not from 1 to 1",
        ),
        ("1 0\n", 1, "pairs.txt:1: 0 is not a whole number from 1"),
        ("1\n", 1, "pairs.txt:1: a line has two rows, but this one has 1 words"),
    ] {
        folder.write("pairs.txt", text);
        assert_eq!(folder.fails(&both, status), message);
    }
    folder.write("zero.mtx", format!("{head}2 2 2\n1 1 1\n2 2 0\n"));
    let refused = format!("zero.mtx: {}", redstartgilt::Error::NonPositiveDefinite);
    assert_eq!(folder.fails(&["zero.mtx", "--operator", "sums.mtx"], 16), refused);
    assert_eq!(
        folder.fails(&["zero.mtx", "--operator", "sums.mtx", "--with", "less.mtx"], 16),
        refused
    );
    // A full first column: its own pair needs all others.
    let full_column = (1..=60).map(|row| format!("{row} 1 1\n")).collect::<String>();
    let diagonal = (2..=60).map(|row| format!("{row} {row} 1\n")).collect::<String>();
    folder.write("f.mtx", format!("{head}60 60 119\n{full_column}{diagonal}"));
    folder.write("a.mtx", format!("{head}2 60 2\n1 1 1\n2 2 1\n"));
    let past = "ClosureTooLarge: the rows need more than 1190 entries, 10 times those of the factor, so none is given";
    assert_eq!(folder.fails(&["f.mtx", "--operator", "a.mtx"], 3), past);
    let both = ["f.mtx", "--operator", "a.mtx", "--with", "a.mtx"];
    assert_eq!(folder.fails(&both, 3), past);
    folder.write("pairs.txt", "2 1\n");
    assert_eq!(
        folder.prints(&[&both[..], &["--pairs", "pairs.txt", "--csv"]].concat()),
        "row,with,covariance\n2,1,-1.0\n"
    );
}
