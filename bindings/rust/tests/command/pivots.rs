//! Factors with pivots: the answers of both forms, and what is told where there are none.

use crate::document::elements;
use crate::{Folder, F2};

const HEADER: &str = "%%MatrixMarket matrix coordinate real general";
const ARRAY: &str = "%%MatrixMarket matrix array real general";

/// (4, 8; 8, 17) as L times its transpose, and as L times D times its transpose, for the pivots 4 and 1.
fn both_forms(name: &str) -> Folder {
    let folder = Folder::new(name);
    folder.write("cholesky.mtx", format!("{HEADER}\n2 2 3\n1 1 2\n2 1 4\n2 2 1\n"));
    folder.write("stored.mtx", format!("{HEADER}\n2 2 3\n1 1 1\n2 1 2\n2 2 1\n"));
    folder.write("unit.mtx", format!("{HEADER}\n2 2 1\n2 1 2\n"));
    folder.write("d.txt", "# the pivots\n4\n\n1.0\n");
    folder
}

#[test]
fn both_forms_answer_alike() {
    let folder = both_forms("pivots");
    for words in [&["--csv"][..], &["--csv", "--entries"], &["--csv", "--limit", "3"]] {
        let with = |more: &[&'static str]| folder.prints(&[words, more].concat());
        let cholesky = with(&["cholesky.mtx"]);
        assert!(cholesky.contains("4.25"));
        for factor in ["unit.mtx", "stored.mtx"] {
            assert_eq!(with(&[factor, "--pivots", "d.txt"]), cholesky, "{factor}");
        }
    }
    // Each column counts its diagonal among the pairs of the factor, but not in the limit if it is not stored.
    let counts = |limit| {
        format!(
            "Complete: 2 pairs requested, 3 computed, 3 in the factor, limit {limit}\n\
             2 of 2 cells computed, 0 of them negative, the least 1.0\n0 of 2 cells not computed\n\
             cell variance\n1 4.25\n2 1.0\n"
        )
    };
    assert_eq!(folder.prints(&["unit.mtx", "--pivots=d.txt"]), counts(10));
    assert_eq!(folder.prints(&["stored.mtx", "--pivots=d.txt"]), counts(30));
}

/// The same factor without pivots is another matrix.
#[test]
fn pivots_of_one_give_the_factor_itself() {
    let folder = both_forms("pivots-of-one");
    folder.write("f2.mtx", F2);
    folder.write("ones.txt", "1\n1\n");
    for words in [&["--csv"][..], &["--csv", "--entries"]] {
        let pivots = [words, &["unit.mtx", "--pivots=ones.txt"]].concat();
        assert_eq!(folder.prints(&pivots), folder.prints(&[words, &["f2.mtx"]].concat()));
    }
}

#[test]
fn requests_order_limit_and_maps() {
    let folder = both_forms("pivots-options");
    folder.write("last.txt", "2 2\n");
    assert_eq!(
        folder.prints(&["unit.mtx", "--pivots=d.txt", "--requests=last.txt", "--csv"]),
        "cell,variance,covered\n1,,no\n2,1.0,yes\n"
    );
    // Cell 1 is the factor's second column; the pivots stay in the factor's order.
    folder.write("order.txt", "2\n1\n");
    let permuted = ["unit.mtx", "--pivots=d.txt", "--permutation=order.txt", "--csv"];
    assert_eq!(
        folder.prints(&permuted),
        "cell,variance,covered\n1,1.0,yes\n2,4.25,yes\n"
    );
    assert_eq!(
        folder.prints(&[&permuted[..], &["--entries"]].concat()),
        "row,column,value\n1,1,1.0\n2,1,-2.0\n2,2,4.25\n"
    );
    assert_eq!(
        folder.fails(&["unit.mtx", "--pivots=d.txt", "--limit=2"], 3),
        "ClosureTooLarge: the requests need more than 2 entries, so none is given; raise --limit"
    );
    // Without an entry that is stored the default limit is 0.
    folder.write("none.mtx", format!("{HEADER}\n2 2 0\n"));
    assert_eq!(
        folder.fails(&["none.mtx", "--pivots=d.txt"], 3),
        "ClosureTooLarge: the requests need more than 0 entries, so none is given; raise --limit"
    );
    assert_eq!(
        folder.prints(&["none.mtx", "--pivots=d.txt", "--limit=2", "--csv"]),
        "cell,variance,covered\n1,0.25,yes\n2,1.0,yes\n"
    );
    folder.prints(&[
        "unit.mtx",
        "--pivots=d.txt",
        "--grid=2x1",
        "--svg=map.svg",
        "--html=map.html",
    ]);
    let document = folder.read("map.svg");
    elements(&document);
    assert!(document.contains("<title>Variances of unit.mtx</title>"));
    assert!(document.contains("column 1, row 1: 4.25"));
    assert!(folder.read("map.html").contains("Variances of unit.mtx"));
    assert_eq!(
        folder.fails(&["unit.mtx", "--pivots=d.txt", "--grid=2x2", "--svg=other.svg"], 2),
        "--grid 2x2 does not have the factor's 2 cells; try --help"
    );
}

/// A Matrix Market array of one column is a list of pivots too.
#[test]
fn arrays() {
    let folder = both_forms("pivots-array");
    let expected = folder.prints(&["unit.mtx", "--pivots=d.txt"]);
    for text in [
        format!("{ARRAY}\n2 1\n4\n1\n"),
        format!("{ARRAY}\n% comments\n\n 2  1 \n 4.0\r\n%\n1e0"),
        "%%matrixmarket Matrix Array Integer General\n2 1\n4\n1\n".to_string(),
    ] {
        folder.write("d.mtx", &text);
        assert_eq!(folder.prints(&["unit.mtx", "--pivots=d.mtx"]), expected, "{text}");
    }
    let other = "d.mtx:1: pivots are a list, or a file with the header %%MatrixMarket matrix array real general";
    for (text, message) in [
        (format!("{HEADER}\n2 1 2\n1 1 4\n2 1 1\n"), other),
        (
            "%%MatrixMarket matrix array complex general\n2 1\n4 0\n1 0\n".to_string(),
            other,
        ),
        (format!("{ARRAY}\n"), "d.mtx: the line with rows and columns is missing"),
        (
            format!("{ARRAY}\n1 2\n4\n1\n"),
            "d.mtx:2: pivots are an array of so many rows and 1 column",
        ),
        (
            format!("{ARRAY}\n2\n4\n1\n"),
            "d.mtx:2: pivots are an array of so many rows and 1 column",
        ),
        (
            format!("{ARRAY}\n3 1\n4\n1\n"),
            "d.mtx: the file says it has 3 values, but has 2",
        ),
        (format!("{ARRAY}\n2 1\n4 1\n"), "d.mtx:3: 4 1 is not a number"),
    ] {
        folder.write("d.mtx", &text);
        assert_eq!(folder.fails(&["unit.mtx", "--pivots=d.mtx"], 1), message, "{text}");
    }
}

#[test]
fn refusals_say_which() {
    let folder = both_forms("pivots-refused");
    let message = |pivots: &str, status: i32| {
        folder.write("p.txt", pivots);
        folder.fails(&["unit.mtx", "--pivots=p.txt"], status)
    };
    assert_eq!(
        message("4\n", 14),
        "p.txt: refusal 4: the list has 1 pivots, the factor 2 columns, and each needs one"
    );
    // The length is told before what the pivots are.
    assert_eq!(
        message("nan\n0\n1\n", 14),
        "p.txt: refusal 4: the list has 3 pivots, the factor 2 columns, and each needs one"
    );
    for (pivots, line, number, told) in [
        ("nan\n0\n", 1, 1, "NaN"),
        ("% two\n0\ninf\n", 3, 2, "inf"),
        ("4\n-1e400\n", 2, 2, "-inf"),
    ] {
        assert_eq!(
            message(pivots, 28),
            format!("p.txt:{line}: refusal 18: pivot {number} is {told}, which is not finite")
        );
    }
    for (pivots, line, number, told) in [
        ("0\n1\n", 1, 1, "0.0"),
        ("\n4\n-0.0\n", 3, 2, "-0.0"),
        ("4\n-2.5\n", 2, 2, "-2.5"),
        ("4\n-1e300\n", 2, 2, "-1e300"),
    ] {
        assert_eq!(
            message(pivots, 16),
            format!("p.txt:{line}: refusal 6: pivot {number} is {told}, and a pivot must be above 0")
        );
    }
    assert_eq!(message("4\none\n", 1), "p.txt:2: one is not a number");
    assert_eq!(
        message("4 1\n", 1),
        "p.txt:1: a line has one pivot, but this one has 2 words"
    );
    assert!(folder
        .fails(&["unit.mtx", "--pivots=absent.txt"], 1)
        .starts_with("absent.txt: "));
    // A diagonal is told by its column, whatever the pivots are, and a missing one is none.
    folder.write("p.txt", "4\n0\n");
    folder.write("f.mtx", format!("{HEADER}\n3 3 3\n3 3 -1\n2 2 0.5\n1 1 1\n"));
    folder.write("three.txt", "0\n1\n1\n");
    assert_eq!(
        folder.fails(&["f.mtx", "--pivots=three.txt"], 33),
        "f.mtx:4: refusal 23: column 2 of the factor has the diagonal 0.5, and beside pivots it must be 1, or not be stored"
    );
    folder.write("f.mtx", format!("{HEADER}\n3 3 2\n3 3 0\n2 2 1\n"));
    folder.write("three.txt", "4\n1\n1\n");
    folder.prints(&["f.mtx", "--pivots=three.txt"]);
    // An entry that is not finite comes before the number of pivots.
    folder.write("f.mtx", format!("{HEADER}\n2 2 1\n2 1 nan\n"));
    assert_eq!(
        folder.fails(&["f.mtx", "--pivots=three.txt"], 28),
        "f.mtx:3: refusal 18: entry (2, 1) of the factor is not finite"
    );
    folder.write("f.mtx", format!("{HEADER}\n5000 5000 0\n"));
    assert!(folder
        .fails(&["f.mtx", "--pivots=three.txt"], 11)
        .starts_with("f.mtx: refusal 1: "));
}
