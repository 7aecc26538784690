//! Variances and entries, as text and as CSV.

use crate::{Folder, F2, F3, WIDE};

#[test]
fn variances_of_all_cells() {
    let folder = Folder::new("variances");
    folder.write("f2.mtx", F2);
    assert_eq!(
        folder.prints(&["f2.mtx"]),
        "Complete: 2 pairs requested, 3 computed, 3 in the factor, limit 30\n\
         2 of 2 cells computed, 0 of them negative, the least 1.0\n\
         0 of 2 cells not computed\n\
         cell variance\n1 5.0\n2 1.0\n"
    );
    assert_eq!(
        folder.prints(&["--csv", "f2.mtx"]),
        "cell,variance,covered\n1,5.0,yes\n2,1.0,yes\n"
    );
    folder.write("f3.mtx", F3.replace('\n', "\r\n"));
    assert_eq!(
        folder.prints(&["f3.mtx", "--csv"]),
        "cell,variance,covered\n1,14.0,yes\n2,1.0,yes\n3,1.0,yes\n"
    );
    folder.write("none.mtx", "%%MatrixMarket matrix coordinate real general\n0 0 0");
    assert_eq!(folder.prints(&["none.mtx", "--csv"]), "cell,variance,covered\n");
    assert_eq!(
        folder.prints(&["none.mtx"]),
        "Complete: 0 pairs requested, 0 computed, 0 in the factor, limit 0\n\
         0 of 0 cells computed\n0 of 0 cells not computed\ncell variance\n"
    );
}

#[test]
fn entries() {
    let folder = Folder::new("entries");
    folder.write("f3.mtx", F3);
    folder.write("pairs.txt", "# one cell\n\n 1\t1 \n");
    assert_eq!(
        folder.prints(&["--entries", "--requests", "pairs.txt", "f3.mtx", "--limit=6"]),
        "Complete: 1 pairs requested, 6 computed, 5 in the factor, limit 6\n\
         row column value\n1 1 14.0\n2 1 -2.0\n3 1 -3.0\n2 2 1.0\n3 2 -0.0\n3 3 1.0\n"
    );
    folder.write("pairs.txt", "3 2");
    assert_eq!(
        folder.prints(&["--entries", "--requests", "pairs.txt", "f3.mtx", "--csv"]),
        "row,column,value\n3,2,-0.0\n"
    );
    // No variance is computed, so none is printed.
    assert_eq!(
        folder.prints(&["--requests", "pairs.txt", "f3.mtx", "--csv"]),
        "cell,variance,covered\n1,,no\n2,,no\n3,,no\n"
    );
    assert_eq!(
        folder.prints(&["--requests", "pairs.txt", "f3.mtx"]),
        "Complete: 1 pairs requested, 1 computed, 5 in the factor, limit 50\n\
         0 of 3 cells computed\n3 of 3 cells not computed\n\
         cell variance\n1 not computed\n2 not computed\n3 not computed\n"
    );
    folder.write("pairs.txt", "2 2\n2 1\n");
    assert_eq!(
        folder.prints(&["--requests", "pairs.txt", "f3.mtx"]),
        "Complete: 2 pairs requested, 3 computed, 5 in the factor, limit 50\n\
         1 of 3 cells computed, 0 of them negative, the least 1.0\n2 of 3 cells not computed\n\
         cell variance\n1 not computed\n2 1.0\n3 not computed\n"
    );
}

/// A limit that would be 5 if it were cut to 32 bits, and the largest; the set has 6 pairs.
#[test]
fn limits_above_32_bits() {
    let folder = Folder::new("limits");
    folder.write("f3.mtx", F3);
    for limit in ["4294967301", "18446744073709551615"] {
        for words in [&["f3.mtx"][..], &["--whole", "f3.mtx"]] {
            let words = [words, &["--limit", limit]].concat();
            let first = folder.prints(&words);
            let first = first.lines().next().unwrap();
            let told = format!("Complete: 3 pairs requested, 6 computed, 5 in the factor, limit {limit}");
            assert_eq!(first, told, "{words:?}");
        }
        let words = ["f3.mtx", "--limit", limit, "--grid=3x1", "--html=map.html"];
        folder.prints(&words);
        assert!(folder.read("map.html").contains(limit));
    }
    let past = "ClosureTooLarge: the requests need more than 5 entries, so none is given; raise --limit";
    assert_eq!(folder.fails(&["f3.mtx", "--limit", "5"], 3), past);
}

/// Values are read back bit for bit, and the order of the cells is used for requests and output.
#[test]
fn a_permutation() {
    let folder = Folder::new("permutation");
    let factor =
        "%%MatrixMarket matrix coordinate real general\n3 3 6\n1 1 1.1\n2 1 -0.3\n3 1 0.7\n2 2 0.9\n3 2 .2\n3 3 1e-1\n";
    folder.write("f.mtx", factor);
    folder.write("order.txt", "3\n1\n2\n");
    let values = |text: String| {
        text.lines()
            .skip(1)
            .map(|line| line.split(',').nth(1).unwrap().parse::<f64>().unwrap().to_bits())
            .collect::<Vec<_>>()
    };
    let by_column = values(folder.prints(&["--csv", "f.mtx"]));
    let by_cell = values(folder.prints(&["--csv", "f.mtx", "--permutation", "order.txt"]));
    assert_eq!(by_cell, [by_column[2], by_column[0], by_column[1]]);
    let library = redstartgilt::CholeskyFactor::from_triplets(
        3,
        &[
            (0, 0, 1.1),
            (1, 0, -0.3),
            (2, 0, 0.7),
            (1, 1, 0.9),
            (2, 1, 0.2),
            (2, 2, 0.1),
        ],
    )
    .unwrap();
    let variances = redstartgilt::selected_inverse_diag(&library).unwrap().values;
    assert_eq!(
        by_column,
        variances.iter().map(|value| value.to_bits()).collect::<Vec<_>>()
    );
    // With a limit the entries are selected by another call.
    let limited = ["--csv", "f.mtx", "--permutation", "order.txt", "--limit", "6"];
    assert_eq!(values(folder.prints(&limited)), by_cell);
    // The factor's last column is cell 1.
    folder.write("pairs.txt", "1 1\n");
    assert_eq!(
        folder.prints(&[
            "--requests=pairs.txt",
            "--entries",
            "--csv",
            "f.mtx",
            "--permutation=order.txt"
        ]),
        format!("row,column,value\n1,1,{:?}\n", f64::from_bits(by_cell[0]))
    );
    folder.write("pairs.txt", "2 3\n");
    let entries = folder.prints(&[
        "--requests=pairs.txt",
        "--entries",
        "--csv",
        "f.mtx",
        "--permutation=order.txt",
    ]);
    let places = entries
        .lines()
        .skip(1)
        .map(|line| line.rsplit_once(',').unwrap().0.to_string())
        .collect::<Vec<_>>();
    assert_eq!(places, ["1,1", "3,1", "3,2", "3,3"]);
}

/// 0.0 is printed for a computed variance alone.
#[test]
fn a_computed_zero_and_a_missing_cell() {
    let folder = Folder::new("zero");
    folder.write("f.mtx", WIDE);
    folder.write("pairs.txt", "1 1\n2 2\n");
    let requests = ["f.mtx", "--requests", "pairs.txt"];
    assert_eq!(
        folder.prints(&requests),
        "Complete: 2 pairs requested, 2 computed, 3 in the factor, limit 30\n\
         2 of 3 cells computed, 0 of them negative, the least 0.0\n1 of 3 cells not computed\n\
         cell variance\n1 0.0\n2 inf\n3 not computed\n"
    );
    assert_eq!(
        folder.prints(&[&requests[..], &["--csv"]].concat()),
        "cell,variance,covered\n1,0.0,yes\n2,inf,yes\n3,,no\n"
    );
    // Cells in another order: cell 1 is the factor's third column.
    folder.write("order.txt", "3\n1\n2\n");
    folder.write("pairs.txt", "2 2\n");
    assert_eq!(
        folder.prints(&[&requests[..], &["--csv", "--permutation", "order.txt"]].concat()),
        "cell,variance,covered\n1,,no\n2,0.0,yes\n3,,no\n"
    );
}
