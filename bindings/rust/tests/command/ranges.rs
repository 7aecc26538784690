//! Bounds on the variances of rows whose weights are known within ranges.

use crate::Folder;

/// The factor with columns (1, -3) and (1): its inverse is (10, 3; 3, 1).
const TWO_COLUMNS: &str = "%%MatrixMarket matrix coordinate integer general\n2 2 3\n1 1 1\n2 1 -3\n2 2 1\n";

const WORDS: [&str; 4] = ["--whole", "w.mtx", "--ranges", "ranges.txt"];

fn folder(name: &str) -> Folder {
    let folder = Folder::new(name);
    folder.write("w.mtx", TWO_COLUMNS);
    folder
}

#[test]
fn bounds_of_rows() {
    let folder = folder("ranges");
    // Lines in any order; row 3 is not there, and row 4 has equal ends.
    folder.write(
        "ranges.txt",
        "% row cell low high\n2 1 -1 2\n4 1 1 1\n1 2 -3 -2\n\n4 2 -1 -1\n# the last\n2 2 1 1\n",
    );
    let bounds = "Every choice of weights within a row's ranges has its variance from the low to the high bound. One \
                  choice of all weights need not have either.";
    assert_eq!(
        folder.prints(&WORDS),
        format!(
            "Complete: 3 pairs requested, 3 computed, 3 in the factor, limit 30\n\
             Exact: computed in whole numbers, and nothing was rounded.\n{bounds}\n\
             row low_bound high_bound\n1 4 9\n2 -5 53\n4 5 5\n"
        )
    );
    let mut csv = WORDS.to_vec();
    csv.push("--csv");
    let lines = "row,exact_low_bound,exact_high_bound\n1,4,9\n2,-5,53\n4,5,5\n";
    assert_eq!(folder.prints(&csv), lines);
    // Cell 1 is the factor's second column.
    folder.write("order.txt", "2\n1\n");
    folder.write("ranges.txt", "1 1 -3 -2\n2 2 -1 2\n2 1 1 1\n4 2 1 1\n4 1 -1 -1\n");
    csv.extend(["--permutation", "order.txt"]);
    assert_eq!(folder.prints(&csv), lines);
    // The pairs of one row's cells alone are requested.
    folder.write("ranges.txt", "1 2 -1024 1024\n");
    assert!(folder
        .prints(&WORDS)
        .starts_with("Complete: 1 pairs requested, 1 computed"));
    folder.write("ranges.txt", "");
    assert!(folder.prints(&WORDS).ends_with("\nrow low_bound high_bound\n"));
}

#[test]
fn malformed_and_refused() {
    let folder = folder("ranges-refused");
    let fails = |text: &str, status: i32, message: &str| {
        folder.write("ranges.txt", text);
        assert_eq!(folder.fails(&WORDS, status), message);
    };
    fails(
        "1 1 0 1\n1 2 0\n",
        1,
        "ranges.txt:2: a line has a row, a cell, a low and a high weight, but this one has 3 words",
    );
    fails("0 1 0 1\n", 1, "ranges.txt:1: 0 is not a whole number from 1");
    fails("1 1 0 1.5\n", 1, "ranges.txt:1: 1.5 is not a whole number of 64 bits");
    fails(
        "1 1 2 1\n1 3 0 1\n",
        19,
        "ranges.txt:2: refusal 9: cell 3 is not from 1 to 2",
    );
    fails(
        "2 1 2 1\n2 1 0 1\n",
        19,
        "ranges.txt:2: refusal 9: row 2 has cell 1 twice",
    );
    fails(
        "1 1 2 1\n",
        31,
        "ranges.txt:1: refusal 21: the low weight 2 is above the high one, 1",
    );
    fails(
        "1 2 0 0\n1 1 -1025 1\n",
        31,
        "ranges.txt:2: refusal 21: the weight -1025 is beyond 1,024 in size",
    );
    fails(
        "1 1 0 1025\n",
        31,
        "ranges.txt:1: refusal 21: the weight 1025 is beyond 1,024 in size",
    );
    // 65 cells of one row.
    let diagonal = (1..=65).map(|cell| format!("{cell} {cell} 1\n")).collect::<String>();
    folder.write(
        "w.mtx",
        format!("%%MatrixMarket matrix coordinate integer general\n65 65 65\n{diagonal}"),
    );
    let cells = (1..=65).map(|cell| format!("1 {cell} 0 1\n")).collect::<String>();
    fails(&cells, 31, "ranges.txt:65: refusal 21: row 1 has more than 64 cells");
    folder.write("ranges.txt", cells.rsplit_once("1 65").unwrap().0);
    let mut words = WORDS.to_vec();
    words.extend(["--limit", "2080", "--csv"]);
    assert_eq!(folder.prints(&words), "row,exact_low_bound,exact_high_bound\n1,0,64\n");
    words[5] = "2079";
    assert_eq!(
        folder.fails(&words, 3),
        "ClosureTooLarge: the requests need more than 2079 entries, so none is given; raise --limit"
    );
    // An entry of 2^30 is accepted, a larger one is not, where a row has its cells.
    for (value, beyond) in [(32768, "1073741825"), (-32768, "1073741825")] {
        folder.write("w.mtx", TWO_COLUMNS.replace("-3", &value.to_string()));
        fails(
            "1 2 0 1\n3 1 0 1\n",
            30,
            &format!("ranges.txt: refusal 20: the entry of cells 1 and 1, of row 3, is {beyond}, which is beyond 2^30 in size"),
        );
        folder.write("ranges.txt", "1 2 0 1\n");
        folder.prints(&WORDS);
    }
}
