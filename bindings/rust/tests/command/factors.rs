//! Factor files: malformed ones, and factors that the library refuses.

use crate::{Folder, F2};

#[test]
fn malformed_factors() {
    let folder = Folder::new("malformed");
    let head = "%%MatrixMarket matrix coordinate real general\n";
    let after = |text: &str| format!("{head}{text}");
    let cases = [
        (String::new(), "f.mtx: the file is empty"),
        (
            "1 1 1\n".into(),
            "f.mtx:1: the first line must be a header such as %%MatrixMarket matrix coordinate real general",
        ),
        (
            "%%MatrixMarket matrix array real general\n".into(),
            "f.mtx:1: a header with \"matrix coordinate\" is needed, not \"matrix array\"",
        ),
        (
            "%%MatrixMarket matrix coordinate complex general\n".into(),
            "f.mtx:1: values must be real or integer, not complex",
        ),
        (
            "%%MatrixMarket matrix coordinate pattern general\n".into(),
            "f.mtx:1: values must be real or integer, not pattern",
        ),
        (
            "%%MatrixMarket matrix coordinate real hermitian\n".into(),
            "f.mtx:1: the matrix must be general or symmetric, not hermitian",
        ),
        (after(""), "f.mtx: the line with rows, columns and entries is missing"),
        (
            after("% no sizes\n"),
            "f.mtx: the line with rows, columns and entries is missing",
        ),
        (
            after("2 2\n"),
            "f.mtx:2: rows, columns and entries must be three whole numbers",
        ),
        (
            after("2 2 -1\n"),
            "f.mtx:2: rows, columns and entries must be three whole numbers",
        ),
        (
            after("2 3 1\n"),
            "f.mtx:2: a factor is square, but this has 2 rows and 3 columns",
        ),
        (after("2 2 1\n"), "f.mtx: the file says it has 1 entries, but has 0"),
        (
            after("2 2 1\n1 1 1\n\n2 2 1\n"),
            "f.mtx:5: more entries than the 1 that the file says it has",
        ),
        (
            after("2 2 1\n1 1\n"),
            "f.mtx:3: an entry is row, column and value, but this line has 2 words",
        ),
        (after("2 2 1\n0 1 1\n"), "f.mtx:3: row 0 is not from 1 to 2"),
        (after("2 2 1\n1 3 1\n"), "f.mtx:3: column 3 is not from 1 to 2"),
        (after("2 2 1\n-1 1 1\n"), "f.mtx:3: row -1 is not a whole number from 1"),
        (
            after("2 2 1\n1 1.0 1\n"),
            "f.mtx:3: column 1.0 is not a whole number from 1",
        ),
        (after("2 2 1\n1 1 one\n"), "f.mtx:3: value one is not a number"),
        (
            after("2 2 3\n1 1 1\n2 2 1\n1 1 2\n"),
            "f.mtx:5: entry (1, 1) is there twice, first in line 3",
        ),
        (
            "%%MatrixMarket matrix coordinate integer general\n1 1 1\n1 1 1.5\n".into(),
            "f.mtx:3: value 1.5 is not a whole number of 64 bits",
        ),
        (
            "%%MatrixMarket matrix coordinate integer general\n1 1 1\n1 1 9007199254740993\n".into(),
            "f.mtx:3: value 9007199254740993 has too many digits for a 64-bit float",
        ),
        (
            "%%MatrixMarket matrix coordinate integer general\n1 1 1\n1 1 9223372036854775807\n".into(),
            "f.mtx:3: value 9223372036854775807 has too many digits for a 64-bit float",
        ),
        (
            "%%MatrixMarket matrix coordinate real symmetric\n2 2 1\n1 2 1\n".into(),
            "f.mtx:3: entry (1, 2) is above the diagonal of a symmetric file",
        ),
    ];
    for (text, message) in cases {
        folder.write("f.mtx", &text);
        assert_eq!(folder.fails(&["f.mtx"], 1), message, "{text:?}");
    }
    folder.write("f.mtx", b"%%MatrixMarket matrix coordinate real general\n\xff\n");
    assert_eq!(folder.fails(&["f.mtx"], 1), "f.mtx:2: the line is not text");
    assert!(folder.fails(&["absent.mtx"], 1).starts_with("absent.mtx: "));
}

#[test]
fn refusals_of_the_library() {
    let folder = Folder::new("refused");
    folder.write("f2.mtx", F2);
    let refused = |words: &[&str], number: i32, place: &str| {
        let message = folder.fails(words, 10 + number);
        let error = redstartgilt::Error::from_number(number as u32).unwrap();
        assert_eq!(message, format!("{place}: {error}"));
    };
    let head = "%%MatrixMarket matrix coordinate real general\n";
    for size in ["4097 4097 0", "18446744073709551615 18446744073709551615 0"] {
        folder.write("f.mtx", format!("{head}{size}\n"));
        refused(&["f.mtx"], 1, "f.mtx");
    }
    folder.write("list.txt", "1\n2\n3\n");
    refused(&["f2.mtx", "--permutation", "list.txt"], 4, "list.txt");
    folder.write("list.txt", "1 1\n3 1\n");
    refused(&["f2.mtx", "--requests", "list.txt"], 5, "list.txt:2");
    for entry in ["1 1 0", "1 1 -1", "1 1 -0.0"] {
        folder.write("f.mtx", format!("{head}1 1 1\n{entry}\n"));
        refused(&["f.mtx"], 6, "f.mtx");
        refused(&["f.mtx", "--entries"], 6, "f.mtx");
    }
    let full_column = (1..=60).map(|row| format!("{row} 1 1\n")).collect::<String>();
    let diagonal = (2..=60).map(|row| format!("{row} {row} 1\n")).collect::<String>();
    folder.write("f.mtx", format!("{head}60 60 119\n{full_column}{diagonal}"));
    refused(&["f.mtx"], 8, "f.mtx");
    folder.write("list.txt", "1\n9\n");
    refused(&["f2.mtx", "--permutation", "list.txt"], 10, "list.txt");
    folder.write("list.txt", "2\n2\n");
    refused(&["f2.mtx", "--permutation", "list.txt"], 11, "list.txt");
    // Past the limit is a status of the library, not a refusal.
    let past = "ClosureTooLarge: the requests need more than 2 entries, so none is given; raise --limit";
    assert_eq!(folder.fails(&["f2.mtx", "--limit", "2"], 3), past);
    assert_eq!(
        folder.prints(&["f.mtx", "--limit", "1830", "--csv"]).lines().count(),
        61
    );
}

/// 18 has the line and the entry, and goes before a diagonal that is not positive and all that other files say.
#[test]
fn factors_that_are_not_finite() {
    let folder = Folder::new("not-finite");
    let head = "%%MatrixMarket matrix coordinate real general\n2 2 4\n";
    folder.write("list.txt", "9\n");
    folder.write("sum.mtx", "%%MatrixMarket matrix coordinate real general\n1 3 0\n");
    for value in ["NaN", "nan", "inf", "-inf", "Infinity", "1e999"] {
        for (place, line) in [("1 1", 6), ("2 1", 5), ("2 2", 4)] {
            let entries = ["1 2 1", "2 2 0", "2 1 1", "1 1 -1"].map(|entry| {
                if entry.starts_with(place) {
                    format!("{place} {value}\n")
                } else {
                    format!("{entry}\n")
                }
            });
            folder.write("f.mtx", format!("{head}{}", entries.concat()));
            let place = place.replace(' ', ", ");
            let message = format!("f.mtx:{line}: refusal 18: entry ({place}) of the factor is not finite");
            for words in [
                &["f.mtx"][..],
                &["f.mtx", "--entries", "--limit=0", "--csv"],
                &["f.mtx", "--requests", "list.txt"],
                &["f.mtx", "--permutation", "list.txt"],
                &["f.mtx", "--operator", "sum.mtx"],
                &["f.mtx", "--operator", "sum.mtx", "--with", "sum.mtx"],
            ] {
                assert_eq!(folder.fails(words, 28), message, "{words:?}");
            }
        }
        // Above the diagonal it is dropped, as every entry there is.
        folder.write("f.mtx", format!("{head}1 1 1\n2 1 2\n1 2 {value}\n2 2 1\n"));
        let variances = "cell,variance,covered\n1,5.0,yes\n2,1.0,yes\n";
        assert_eq!(folder.prints(&["f.mtx", "--csv"]), variances);
    }
    // The first by column, then by row, is told, wherever it stands in the file.
    folder.write("f.mtx", format!("{head}2 2 NaN\n1 2 NaN\n2 1 NaN\n1 1 1\n"));
    let message = "f.mtx:5: refusal 18: entry (2, 1) of the factor is not finite";
    assert_eq!(folder.fails(&["f.mtx"], 28), message);
}
