//! Files with mistakes: each is answered or told of in one line, and none ends in a panic.

use crate::{message, Folder};

const FACTOR: &str = "%%MatrixMarket matrix coordinate integer general\n3 3 5\n1 1 1\n2 1 2\n3 1 3\n2 2 1\n3 3 1\n";
const SUMS: &str = "%%MatrixMarket matrix coordinate real general\n2 3 3\n1 1 1\n1 2 1\n2 3 2\n";
const CELLS: &str = "%%MatrixMarket matrix coordinate pattern symmetric\n3 3 2\n1 1\n3 2\n";
const ARRAY: &str = "%%MatrixMarket matrix array real general\n3 1\n1\n2\n3\n";

/// The texts with one word in the place of another, and those that are cut after a line or within it.
fn mistakes(text: &str) -> Vec<String> {
    let mut found = Vec::new();
    let starts = text.split_inclusive(char::is_whitespace).scan(0, |start, word| {
        *start += word.len();
        Some((*start - word.len(), word.trim_end().len()))
    });
    for (start, length) in starts {
        for word in ["", "0", "99", "-1", "1e999", "18446744073709551615"] {
            found.push(format!("{}{word}{}", &text[..start], &text[start + length..]));
        }
        found.push(text[..start].to_string());
    }
    found.push(text.replace('\n', "\r\n"));
    found.push(text.to_string() + text);
    found
}

#[test]
fn no_mistake_ends_in_a_panic() {
    let folder = Folder::new("mistakes");
    let files = [
        ("f.mtx", FACTOR),
        ("sums.mtx", SUMS),
        ("cells.mtx", CELLS),
        ("cells.txt", "1 1\n3 2\n"),
        ("order.txt", "3\n1\n2\n"),
        ("pivots.txt", "1\n2\n3\n"),
        ("pivots.mtx", ARRAY),
        ("pairs.txt", "1 1\n2 1\n"),
        ("ranges.txt", "1 1 0 1\n1 2 -1 1\n2 3 1 1\n"),
        ("track.txt", "1\n2\n3\n1\n"),
    ];
    for (file, text) in files {
        folder.write(file, text);
    }
    let mut answered = 0;
    let mut told = 0;
    for (words, file) in [
        (&["f.mtx", "--entries"][..], "f.mtx"),
        (&["f.mtx", "--whole", "--matrix=-"], "f.mtx"),
        (
            &["f.mtx", "--pivots=pivots.txt", "--grid=3x1", "--html=map.html"],
            "f.mtx",
        ),
        (&["f.mtx", "--exact=least"], "f.mtx"),
        (&["f.mtx", "--requests=cells.mtx", "--why=3,2"], "cells.mtx"),
        (
            &["f.mtx", "--requests=cells.txt", "--write-requests=out.mtx"],
            "cells.txt",
        ),
        (&["f.mtx", "--permutation=order.txt"], "order.txt"),
        (&["f.mtx", "--pivots=pivots.txt"], "pivots.txt"),
        (&["f.mtx", "--pivots=pivots.mtx"], "pivots.mtx"),
        (&["f.mtx", "--operator=sums.mtx"], "sums.mtx"),
        (
            &["f.mtx", "--operator=sums.mtx", "--with=sums.mtx", "--pairs=pairs.txt"],
            "pairs.txt",
        ),
        (&["f.mtx", "--whole", "--ranges=ranges.txt"], "ranges.txt"),
        (&["f.mtx", "--whole", "--track=track.txt", "--width=2"], "track.txt"),
    ] {
        let (_, text) = files.into_iter().find(|(name, _)| *name == file).unwrap();
        for mistake in mistakes(text) {
            folder.write(file, &mistake);
            let run = folder.run(words);
            let errors = String::from_utf8(run.stderr).unwrap();
            match run.status.code() {
                Some(0) => answered += 1,
                Some(1..=4 | 11..=34) => {
                    let place = message(&errors);
                    assert!(run.stdout.is_empty(), "{words:?} {mistake:?}");
                    assert!(
                        place.contains(".mtx") || place.contains(".txt"),
                        "{words:?} {mistake:?}: {errors}"
                    );
                    told += 1;
                }
                status => panic!("{words:?} {mistake:?}: {status:?} {errors}"),
            }
        }
        folder.write(file, text);
    }
    assert!(answered > 50 && told > 500, "{answered} {told}");
}
