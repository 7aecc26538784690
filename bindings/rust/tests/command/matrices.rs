//! Entries as Matrix Market files, and the requested ones alone.

use crate::{Folder, F3, WIDE};

const REAL: &str = "%%MatrixMarket matrix coordinate real symmetric\n";

/// The entries of a file, with the bits of their values.
fn entries(file: &str) -> Vec<(usize, usize, u64)> {
    let entry = |line: &str| {
        let words = line.split(' ').collect::<Vec<_>>();
        let value = words[2].parse::<f64>().unwrap();
        (words[0].parse().unwrap(), words[1].parse().unwrap(), value.to_bits())
    };
    file.lines().skip(2).map(entry).collect()
}

#[test]
fn entries_in_a_file() {
    let folder = Folder::new("matrix");
    folder.write("f3.mtx", F3);
    folder.write("pairs.txt", "1 1\n");
    folder.write("order.txt", "3\n1\n2\n");
    let printed = folder.prints(&["f3.mtx"]);
    assert_eq!(folder.prints(&["f3.mtx", "--matrix", "z.mtx"]), printed);
    let all = format!("{REAL}3 3 6\n1 1 14.0\n2 1 -2.0\n3 1 -3.0\n2 2 1.0\n3 2 -0.0\n3 3 1.0\n");
    assert_eq!(folder.read("z.mtx"), all);
    for words in [
        &["--requests=pairs.txt", "--limit=6"][..],
        &["--entries"],
        &["--exact=0"],
        &["--grid=3x1", "--svg=map.svg"],
    ] {
        folder.write("z.mtx", "");
        folder.prints(&[words, &["f3.mtx", "--matrix", "z.mtx"]].concat());
        assert_eq!(folder.read("z.mtx"), all, "{words:?}");
    }
    // In the order of the cells: cell 1 is the factor's third column.
    folder.prints(&["f3.mtx", "--permutation=order.txt", "--matrix=z.mtx"]);
    let moved = format!("{REAL}3 3 6\n1 1 1.0\n2 1 -3.0\n3 1 -0.0\n2 2 14.0\n3 2 -2.0\n3 3 1.0\n");
    assert_eq!(folder.read("z.mtx"), moved);
    // In whole numbers.
    folder.prints(&["f3.mtx", "--whole", "--requests=pairs.txt", "--matrix=z.mtx"]);
    let whole = "%%MatrixMarket matrix coordinate integer symmetric\n\
                 3 3 6\n1 1 14\n2 1 -2\n3 1 -3\n2 2 1\n3 2 0\n3 3 1\n";
    assert_eq!(folder.read("z.mtx"), whole);
    // With pivots.
    folder.write(
        "unit.mtx",
        "%%MatrixMarket matrix coordinate real general\n2 2 1\n2 1 2\n",
    );
    folder.write("d.txt", "4\n1\n");
    folder.prints(&["unit.mtx", "--pivots=d.txt", "--matrix=z.mtx"]);
    assert_eq!(
        folder.read("z.mtx"),
        format!("{REAL}2 2 3\n1 1 4.25\n2 1 -2.0\n2 2 1.0\n")
    );
    // None, of no cell.
    folder.write("none.mtx", "%%MatrixMarket matrix coordinate real general\n0 0 0\n");
    folder.prints(&["none.mtx", "--matrix=z.mtx"]);
    assert_eq!(folder.read("z.mtx"), format!("{REAL}0 0 0\n"));
    let message = folder.fails(&["f3.mtx", "--matrix=no/z.mtx"], 1);
    assert!(message.starts_with("no/z.mtx: "), "{message}");
}

#[test]
fn values_read_back_bit_for_bit() {
    let folder = Folder::new("matrix-bits");
    let head = "%%MatrixMarket matrix coordinate real general\n";
    folder.write(
        "f.mtx",
        format!("{head}3 3 6\n1 1 1.1\n2 1 -0.3\n3 1 0.7\n2 2 0.9\n3 2 .2\n3 3 1e-1\n"),
    );
    folder.prints(&["f.mtx", "--matrix=z.mtx"]);
    let library = redstartgilt::CholeskyFactor::from_triplets(
        3,
        &[
            (0, 0, 1.1),
            (1, 0, -0.3),
            (2, 0, 0.7),
            (1, 1, 0.9),
            (2, 1, 0.2),
            (2, 2, 0.1),
        ],
    )
    .unwrap();
    let requested = redstartgilt::SparseSymmetricPattern::diagonal(3);
    let inverse = redstartgilt::selected_inverse_entries(&library, &requested)
        .unwrap()
        .inverse
        .unwrap();
    let expected = inverse
        .entries()
        .map(|(row, column, value)| (row + 1, column + 1, value.to_bits()));
    assert_eq!(entries(&folder.read("z.mtx")), expected.collect::<Vec<_>>());
    // Zero, an infinity, and the least of all.
    folder.write("wide.mtx", WIDE);
    folder.prints(&["wide.mtx", "--matrix=z.mtx"]);
    assert_eq!(
        folder.read("z.mtx"),
        format!("{REAL}3 3 3\n1 1 0.0\n2 2 inf\n3 3 1.0\n")
    );
    folder.write("f.mtx", format!("{head}1 1 1\n1 1 1e154\n"));
    folder.prints(&["f.mtx", "--matrix=z.mtx"]);
    let value = 1.0 / (1e154 * 1e154);
    assert_eq!(entries(&folder.read("z.mtx")), [(1, 1, f64::to_bits(value))]);
}

#[test]
fn the_requested_pairs_alone() {
    let folder = Folder::new("only-requested");
    folder.write("f3.mtx", F3);
    folder.write("pairs.txt", "1 2\n1 1\n");
    folder.write("order.txt", "3\n1\n2\n");
    let words = ["f3.mtx", "--only-requested", "--requests=pairs.txt", "--matrix=z.mtx"];
    let prints = |more: &[&str], printed: &str, written: &str| {
        let words = [&words[..], more].concat();
        assert_eq!(folder.prints(&words), printed, "{words:?}");
        assert_eq!(folder.read("z.mtx"), written, "{words:?}");
    };
    let file = format!("{REAL}3 3 2\n1 1 14.0\n2 1 -2.0\n");
    prints(
        &["--entries"],
        "Complete: 2 pairs requested, 6 computed, 5 in the factor, limit 50\n\
         row column value\n1 1 14.0\n2 1 -2.0\n",
        &file,
    );
    // Without --entries the variances are printed, of all cells that are computed.
    prints(
        &["--csv"],
        "cell,variance,covered\n1,14.0,yes\n2,1.0,yes\n3,1.0,yes\n",
        &file,
    );
    // Cells 1 and 2 are the factor's third and first.
    prints(
        &["--entries", "--csv", "--permutation=order.txt"],
        "row,column,value\n1,1,1.0\n2,1,-3.0\n",
        &format!("{REAL}3 3 2\n1 1 1.0\n2 1 -3.0\n"),
    );
    prints(
        &["--entries", "--csv", "--whole"],
        "row,column,exact_value\n1,1,14\n2,1,-2\n",
        "%%MatrixMarket matrix coordinate integer symmetric\n3 3 2\n1 1 14\n2 1 -2\n",
    );
    // Without --requests the diagonals are requested.
    assert_eq!(
        folder.prints(&["f3.mtx", "--entries", "--only-requested", "--csv"]),
        "row,column,value\n1,1,14.0\n2,2,1.0\n3,3,1.0\n"
    );
    // Of a factor with an infinite entry too.
    folder.write("wide.mtx", WIDE.replace("3 3 3\n", "3 3 4\n2 1 1\n"));
    folder.write("pairs.txt", "3 3\n");
    let words = [
        "wide.mtx",
        "--entries",
        "--csv",
        "--only-requested",
        "--requests=pairs.txt",
    ];
    assert_eq!(folder.prints(&words), "row,column,value\n3,3,1.0\n");
}
