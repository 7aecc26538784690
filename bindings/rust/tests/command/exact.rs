//! Entries that a proved theorem says are exact, and what is told where it does not.

use crate::document::elements;
use crate::Folder;

const HEADER: &str = "%%MatrixMarket matrix coordinate real general";

/// Columns (2, 6) and (4), whose inverse has 13/16, -3/16 and 1/16.
fn sixteenths() -> String {
    format!("{HEADER}\n2 2 3\n1 1 2\n2 1 6\n2 2 4\n")
}

const YES: &str = "Yes, with s = 4: the hypotheses of the proved theorem on exact entries are met. This command has \
                   checked them; its own code is tested, and not proved.\n";
const COUNTS: &str = "Complete: 2 pairs requested, 3 computed, 3 in the factor, limit 30\n\
                      Exact: by the proved theorem these are the exact entries of the inverse, with all their digits.\n";

#[test]
fn yes() {
    let folder = Folder::new("exact");
    folder.write("f.mtx", sixteenths());
    let cells = "2 of 2 cells computed, 0 of them negative, the least 0.0625\n0 of 2 cells not computed\n\
                 cell variance\n1 0.8125\n2 0.0625\n";
    for words in [["--exact", "4", "f.mtx"], ["f.mtx", "--exact", "least"]] {
        assert_eq!(folder.prints(&words), format!("{YES}{COUNTS}{cells}"), "{words:?}");
    }
    assert_eq!(
        folder.prints(&["--exact=4", "f.mtx", "--entries"]),
        format!("{YES}{COUNTS}row column value\n1 1 0.8125\n2 1 -0.1875\n2 2 0.0625\n")
    );
    assert_eq!(
        folder.prints(&["--exact=4", "f.mtx", "--csv"]),
        "cell,exact_variance,covered\n1,0.8125,yes\n2,0.0625,yes\n"
    );
    // A larger s that covers it too is taken where it is given.
    assert!(folder
        .prints(&["--exact=40", "f.mtx"])
        .starts_with("Yes, with s = 40: the hypotheses"));
    // The same numbers, without the promise.
    assert_eq!(
        folder.prints(&["f.mtx", "--csv"]),
        "cell,variance,covered\n1,0.8125,yes\n2,0.0625,yes\n"
    );
}

/// All digits are printed, where fewer would read back as the same float.
#[test]
fn all_digits() {
    let folder = Folder::new("exact-digits");
    // -l is the entry (2,1), and 2^53 - 1 its multiplier of 2^-53.
    folder.write(
        "f.mtx",
        format!("{HEADER}\n2 2 3\n1 1 1\n2 1 0.99999999999999988897769753748\n2 2 1\n"),
    );
    folder.write("pair.txt", "2 1\n");
    assert_eq!(
        folder.prints(&["--exact=53", "f.mtx", "--requests=pair.txt", "--csv", "--entries"]),
        "row,column,exact_value\n\
         2,1,-0.99999999999999988897769753748434595763683319091796875\n\
         2,2,1.0\n"
    );
}

#[test]
fn requests_order_limit_and_maps() {
    let folder = Folder::new("exact-options");
    // Cell 1 is the factor's second column.
    folder.write("f.mtx", sixteenths());
    folder.write("order.txt", "2\n1\n");
    let permuted = ["--exact=least", "f.mtx", "--permutation=order.txt", "--csv"];
    assert_eq!(
        folder.prints(&permuted),
        "cell,exact_variance,covered\n1,0.0625,yes\n2,0.8125,yes\n"
    );
    // Of the last column alone s = 4 does as well, and nothing is asked of the first but that it is of multiples.
    folder.write("last.txt", "2 2\n");
    assert_eq!(
        folder.prints(&["--exact=4", "f.mtx", "--requests=last.txt", "--csv"]),
        "cell,exact_variance,covered\n1,,no\n2,0.0625,yes\n"
    );
    assert_eq!(
        folder.fails(&["--exact=4", "f.mtx", "--limit=2"], 3),
        "ClosureTooLarge: the requests need more than 2 entries, so none is given; raise --limit"
    );
    folder.prints(&["--exact=4", "f.mtx", "--grid=2x1", "--svg=map.svg", "--html=map.html"]);
    let document = folder.read("map.svg");
    elements(&document);
    assert!(document.contains("<title>Exact variances of f.mtx</title>"));
    assert!(folder.read("map.html").contains("Exact variances of f.mtx"));
    // What the factor is refused for is told first.
    folder.write("bare.mtx", format!("{HEADER}\n1 1 0\n"));
    assert!(folder.fails(&["--exact=4", "bare.mtx"], 16).contains("refusal 6"));
}

/// Each kind of number that can fail is told, with its exact value.
#[test]
fn no() {
    let folder = Folder::new("exact-no");
    let fails = |entries: &str, requests: &str, scale: &str| {
        let n = entries
            .lines()
            .filter(|line| line.split(' ').next() == line.split(' ').nth(1))
            .count();
        let count = entries.lines().count();
        folder.write("f.mtx", format!("{HEADER}\n{n} {n} {count}\n{entries}"));
        folder.write("r.txt", requests);
        let message = folder.fails(&["--exact", scale, "f.mtx", "--requests=r.txt"], 4);
        let start = format!("f.mtx: no, with s = {scale} nothing is promised: ");
        let message = message.strip_prefix(&start).unwrap_or_else(|| panic!("{message}"));
        message.strip_suffix('.').unwrap().to_string()
    };
    let sixteenths = "1 1 2\n2 1 6\n2 2 4\n";
    for (entries, requests, scale, message) in [
        (
            "1 1 1\n2 1 0.375\n2 2 1\n",
            "2 2\n",
            "2",
            "entry (2, 1) of the factor is 3/8, no whole multiple of 2^-2",
        ),
        (
            "1 1 0.5\n",
            "1 1\n",
            "0",
            "entry (1, 1) of the factor is 1/2, no whole number",
        ),
        (
            sixteenths,
            "1 1\n",
            "3",
            "entry (2, 2) of the inverse: 1/(d*d), d being the factor's diagonal, is 1/16, no whole multiple of 2^-3",
        ),
        (
            "1 1 1\n2 1 0.5\n3 1 1\n2 2 1\n3 2 0.5\n3 3 1\n",
            "3 1\n",
            "1",
            "entry (3, 1) of the inverse: the product of entry (2, 1) of the factor and entry (3, 2) of the inverse is -1/4, no \
             whole multiple of 2^-1",
        ),
        (
            "1 1 1\n2 1 9007199254740994\n2 2 1\n",
            "2 1\n",
            "0",
            "entry (2, 1) of the inverse: the product of entry (2, 1) of the factor and entry (2, 2) of the inverse is \
             9007199254740994, beyond 2^53 in size",
        ),
        (
            "1 1 1\n2 1 1\n3 1 9007199254740992\n2 2 1\n3 2 -1\n3 3 1\n",
            "3 1\n",
            "0",
            "entry (3, 1) of the inverse: the sum up to the product with entry (3, 1) of the factor is 9007199254740993, beyond \
             2^53 in size",
        ),
        (
            "1 1 0.5\n",
            "1 1\n",
            "1",
            "entry (1, 1) of the inverse: d*d, d being the factor's diagonal, is 1/4, no whole multiple of 2^-1",
        ),
        (
            "1 1 8\n",
            "1 1\n",
            "53",
            "entry (1, 1) of the inverse: d*d, d being the factor's diagonal, is 64, and its multiplier of 2^-53 is beyond 2^53 \
             in size",
        ),
        (
            "1 1 0.00000001490116119384765625\n",
            "1 1\n",
            "52",
            "entry (1, 1) of the inverse: 1/(d*d), d being the factor's diagonal, is 4503599627370496, and its multiplier of \
             2^-52 is beyond 2^53 in size",
        ),
        (
            "1 1 3\n2 1 5\n2 2 1\n",
            "2 1\n",
            "7",
            "entry (2, 1) of the inverse is -5/3, no whole multiple of 2^-7",
        ),
        (
            "1 1 4\n2 1 0.5\n2 2 1\n",
            "1 1\n",
            "4",
            "entry (1, 1) of the inverse: the sum over the factor's diagonal is -1/64, no whole multiple of 2^-4",
        ),
        (
            "1 1 1\n2 1 5792.61871337890625\n2 2 1\n",
            "1 1\n",
            "28",
            "entry (1, 1) of the inverse is 9007199404685681/268435456, and its multiplier of 2^-28 is beyond 2^53 in size",
        ),
        // An entry of any size is a multiple, until it meets an entry of the inverse other than 0.
        (
            "1 1 1\n2 1 1e300\n2 2 1\n",
            "2 1\n",
            "9",
            "entry (2, 1) of the inverse: the product of entry (2, 1) of the factor and entry (2, 2) of the inverse is 1681218273811815*2^946, \
             and its multiplier of 2^-9 is beyond 2^53 in size",
        ),
    ] {
        assert_eq!(fails(entries, requests, scale), message);
    }
}

#[test]
fn no_scale_at_all() {
    let folder = Folder::new("exact-none");
    let fails = |entries: &str| {
        let n = entries
            .lines()
            .filter(|line| line.split(' ').next() == line.split(' ').nth(1))
            .count();
        folder.write(
            "f.mtx",
            format!("{HEADER}\n{n} {n} {}\n{entries}", entries.lines().count()),
        );
        let message = folder.fails(&["--exact=least", "f.mtx"], 4);
        let start = "f.mtx: no, with no s from 0 to 53 is anything promised: ";
        message
            .strip_prefix(start)
            .unwrap_or_else(|| panic!("{message}"))
            .to_string()
    };
    assert_eq!(
        fails("1 1 3\n"),
        "entry (1, 1) of the inverse: 1/(d*d), d being the factor's diagonal, is 1/9, a whole multiple of 2^-s for no s from 0 \
         to 53."
    );
    // 2^-26: the double 2^52 is exact all the same, which is not promised.
    assert_eq!(
        fails("1 1 0.00000001490116119384765625\n"),
        "entry (1, 1) of the inverse: 1/(d*d), d being the factor's diagonal, is 4503599627370496, and its multiplier of 2^-52 \
         is beyond 2^53 in size; and s must be at least 52: entry (1, 1) of the inverse: d*d, d being the factor's diagonal, is \
         1/4503599627370496."
    );
}

/// d = 3 divides the sum 6, and no diagonal of its column is in the set.
#[test]
fn a_diagonal_that_is_no_power_of_two() {
    let folder = Folder::new("exact-three");
    folder.write("f.mtx", format!("{HEADER}\n2 2 3\n1 1 3\n2 1 6\n2 2 1\n"));
    folder.write("pair.txt", "1 2\n");
    assert_eq!(
        folder.prints(&["--exact=0", "f.mtx", "--requests=pair.txt", "--entries", "--csv"]),
        "row,column,exact_value\n2,1,-2.0\n2,2,1.0\n"
    );
}
