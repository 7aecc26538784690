//! Files of requests.

use crate::{Folder, F2, F3, HEADER};

#[test]
fn malformed_lists() {
    let folder = Folder::new("lists");
    folder.write("f2.mtx", F2);
    for (text, message) in [
        ("1\n", "list.txt:1: a line has two indices, but this one has 1 words"),
        ("% pairs\n1 1\n0 1\n", "list.txt:3: 0 is not a whole number from 1"),
        ("1 x\n", "list.txt:1: x is not a whole number from 1"),
    ] {
        folder.write("list.txt", text);
        assert_eq!(folder.fails(&["f2.mtx", "--requests", "list.txt"], 1), message);
    }
    for (text, message) in [
        ("1 2\n", "list.txt:1: a line has one index, but this one has 2 words"),
        ("1\n0\n", "list.txt:2: 0 is not a whole number from 1"),
    ] {
        folder.write("list.txt", text);
        assert_eq!(folder.fails(&["f2.mtx", "--permutation", "list.txt"], 1), message);
    }
}

/// A Matrix Market file of requests gives what the same pairs in a list give.
#[test]
fn requests_in_matrix_market_form() {
    let folder = Folder::new("matrix-market");
    folder.write("f3.mtx", F3);
    folder.write("order.txt", "3\n1\n2\n");
    let same = |file: &str, list: &str| {
        folder.write("cells.mtx", file);
        folder.write("pairs.txt", list);
        for words in [
            &["f3.mtx"][..],
            &["f3.mtx", "--entries"],
            &["f3.mtx", "--entries", "--permutation", "order.txt"],
            &["f3.mtx", "--csv", "--permutation", "order.txt", "--limit", "6"],
        ] {
            let of = |requests: &'static str| folder.prints(&[words, &["--requests", requests]].concat());
            assert_eq!(of("cells.mtx"), of("pairs.txt"), "{file:?} {words:?}");
        }
    };
    same(&format!("{HEADER}\n3 3 1\n1 1\n"), "1 1\n");
    same(
        &format!("{HEADER}\n% cells\n\n 03\t3 3 \n2 2\n3 1\n \n2 2"),
        "2 2\n3 1\n",
    );
    // A file without entries means every cell.
    same(&format!("{HEADER}\n3 3 0"), "1 1\n2 2\n3 3\n");
    folder.write("cells.mtx", format!("{HEADER}\n3 3 1\n3 2\n"));
    let entries = ["--entries", "--csv", "f3.mtx", "--requests", "cells.mtx"];
    assert_eq!(folder.prints(&entries), "row,column,value\n3,2,-0.0\n");
    // In the order of the cells: 2 and 3 are the factor's first and second.
    let moved = folder.prints(&[&entries[..], &["--permutation", "order.txt"]].concat());
    assert!(moved.contains("\n3,2,-2.0\n"), "{moved}");
    // Another first line: a list, of which lines with % are passed over.
    for list in ["%%Matrix Market\n1 1\n", "% 3 3 1\n%%MatrixMarket\n1 1\n", "%\n1 1\n"] {
        folder.write("cells.mtx", list);
        let found = folder.prints(&["f3.mtx", "--csv", "--requests", "cells.mtx"]);
        assert!(found.starts_with("cell,variance,covered\n1,14.0,yes\n"), "{list}");
    }
}

#[test]
fn refused_request_files() {
    let folder = Folder::new("refused-requests");
    folder.write("f2.mtx", F2);
    let exactly = format!("the first line must be exactly \"{HEADER}\", and is");
    let after = |text: &str| format!("{HEADER}\n{text}");
    for (text, number, message) in [
        (
            "%%MatrixMarket matrix coordinate pattern general\n2 2 0\n".into(),
            15,
            format!(":1: refusal 15: {exactly} \"%%MatrixMarket matrix coordinate pattern general\""),
        ),
        (
            "%%matrixmarket matrix coordinate pattern symmetric\n2 2 0\n".into(),
            15,
            format!(":1: refusal 15: {exactly} \"%%matrixmarket matrix coordinate pattern symmetric\""),
        ),
        (
            "%%MatrixMarket".into(),
            15,
            format!(":1: refusal 15: {exactly} \"%%MatrixMarket\""),
        ),
        (
            format!("{HEADER}\r\n2 2 0\r\n"),
            15,
            ":1: refusal 15: a carriage return (CR) follows the header; lines must end in LF alone".into(),
        ),
        (
            format!("\u{feff}{HEADER}\n2 2 0\n"),
            15,
            ":1: refusal 15: a byte order mark stands before the header".into(),
        ),
        (
            HEADER.into(),
            16,
            ": refusal 16: the file ends before its size line, the line with rows, columns and entries".into(),
        ),
        (
            after("% none\n\n2 2 1\n1 1 1\n"),
            16,
            ":5: refusal 16: an entry is two numbers, and this line has 3 fields".into(),
        ),
        (
            after("2 2 2\n\n9 1\n"),
            16,
            ":2: refusal 16: the entry count is 2, and the file has 1 entry line".into(),
        ),
        (
            after("2 2 2\n1 1\n\n2 3\n"),
            17,
            ":5: refusal 17: column 3 is beyond the dimension 2".into(),
        ),
        (
            after("2 2 1\n1 2\n"),
            17,
            ":3: refusal 17: entry (1, 2) is above the diagonal: its row must be at least its column".into(),
        ),
        (
            after("3 3 1\n3 1\n"),
            4,
            ": refusal 4: the file is of dimension 3, the factor of dimension 2".into(),
        ),
        // A fault of the file goes before its dimension.
        (
            after("3 3 1\n4 1\n"),
            17,
            ":3: refusal 17: row 4 is beyond the dimension 3".into(),
        ),
    ] {
        folder.write("cells.mtx", &text);
        for words in [
            &["f2.mtx", "--requests", "cells.mtx"][..],
            &["f2.mtx", "--requests=cells.mtx", "--limit=9", "--entries", "--csv"],
        ] {
            let found = folder.fails(words, 10 + number);
            assert_eq!(found, format!("cells.mtx{message}"), "{text:?}");
        }
    }
    assert!(folder
        .fails(&["f2.mtx", "--requests", "absent.mtx"], 1)
        .starts_with("absent.mtx: "));
}

#[test]
fn written_request_files() {
    let folder = Folder::new("written_requests");
    folder.write("f3.mtx", F3);
    folder.write("order.txt", "3\n1\n2\n");
    folder.write("pairs.txt", "1 3\n2 2\n3 1\n");
    let file = format!("{HEADER}\n3 3 2\n3 1\n2 2\n");
    // In the order of the cells, whatever that of the factor is; and beside what else is printed.
    for words in [
        &["f3.mtx"][..],
        &["f3.mtx", "--permutation", "order.txt", "--entries"],
        &["f3.mtx", "--permutation", "order.txt", "--whole"],
        &["f3.mtx", "--why", "3,1"],
    ] {
        let asked = [words, &["--requests", "pairs.txt"]].concat();
        let printed = folder.prints(&asked);
        assert_eq!(
            folder.prints(&[&asked[..], &["--write-requests", "cells.mtx"]].concat()),
            printed
        );
        assert_eq!(folder.read("cells.mtx"), file, "{words:?}");
        // Read back and written again it is the same, also over itself.
        folder.prints(&[words, &["--requests", "cells.mtx", "--write-requests", "cells.mtx"]].concat());
        assert_eq!(folder.read("cells.mtx"), file, "{words:?}");
        std::fs::remove_file(folder.0.join("cells.mtx")).unwrap();
    }
    // Without --requests, and of a file without entries: every cell.
    let all = format!("{HEADER}\n3 3 3\n1 1\n2 2\n3 3\n");
    folder.prints(&["f3.mtx", "--write-requests", "all.mtx"]);
    assert_eq!(folder.read("all.mtx"), all);
    folder.write("none.mtx", format!("{HEADER}\n3 3 0\n"));
    folder.prints(&["f3.mtx", "--requests", "none.mtx", "--write-requests", "all.mtx"]);
    assert_eq!(folder.read("all.mtx"), all);
    folder.prints(&["--demo", "--write-requests", "harbour.mtx"]);
    assert!(folder
        .read("harbour.mtx")
        .starts_with(&format!("{HEADER}\n266 266 266\n1 1\n")));
    // A list without pairs is not written, and the file is as it was.
    folder.write("none.txt", "# none\n");
    let message = folder.fails(&["f3.mtx", "--requests", "none.txt", "--write-requests", "all.mtx"], 34);
    assert!(message.starts_with("all.mtx: refusal 24: no requests"), "{message}");
    assert_eq!(folder.read("all.mtx"), all);
    // A folder that is not there.
    let message = folder.fails(&["f3.mtx", "--write-requests", "no/cells.mtx"], 1);
    assert!(message.starts_with("no/cells.mtx: "), "{message}");
    for (words, message) in [
        (
            &["--operator", "f3.mtx"][..],
            "--operator does not go with --write-requests",
        ),
        (
            &["--whole", "--ranges", "pairs.txt"],
            "--ranges does not go with --write-requests",
        ),
        (
            &["--whole", "--track", "pairs.txt", "--width", "1"],
            "--track does not go with --write-requests",
        ),
        (
            &["--grid", "3x1", "--svg", "a.mtx"],
            "--write-requests and --svg need two files",
        ),
    ] {
        let words = [words, &["f3.mtx", "--write-requests", "a.mtx"]].concat();
        assert_eq!(folder.fails(&words, 2), format!("{message}; try --help"));
    }
}
