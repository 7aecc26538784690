//! Why a pair is computed: its chain, in words and drawn.

use crate::document::{attribute, cells, elements, marks};
use crate::{Folder, F2, F3, INNER_FAIRWAY};

const IN_FACTOR_ORDER: &str = "Cells have the numbers of the factor's rows and columns, from 1.\n";

/// The chain in sentences, and as a table.
#[test]
fn why_a_pair_is_computed() {
    let folder = Folder::new("why");
    folder.write("f3.mtx", F3);
    folder.write("pairs.txt", "1 1\n");
    let requests = ["f3.mtx", "--requests", "pairs.txt"];
    let chain = format!(
        "(3, 2) is in the set because (1, 1) was requested: a chain of 3 pairs leads to it, and none is shorter.\n\
         {IN_FACTOR_ORDER}\
         1  (1, 1) was requested.\n\
         2  (2, 1) is needed because (1, 1) was requested and cell 2 is coupled to cell 1 by entry (2, 1) of the \
         factor.\n\
         3  (3, 2) is needed because (2, 1) is needed and cell 3 is coupled to cell 1 by entry (3, 1) of the factor.\n"
    );
    for pair in ["3,2", "2,3", " 3 , 2 "] {
        assert_eq!(folder.prints(&[&requests[..], &["--why", pair]].concat()), chain);
    }
    assert_eq!(
        folder.prints(&[&requests[..], &["--why=3,2", "--csv"]].concat()),
        "pair,row,column,factor_row,factor_column\n1,1,1,,\n2,2,1,2,1\n3,3,2,3,1\n"
    );
    // Without requests all diagonals are requested.
    assert_eq!(folder.prints(&["f3.mtx", "--why", "2,3"]), chain);
    assert_eq!(
        folder.prints(&["f3.mtx", "--why", "2,2"]),
        format!("(2, 2) is in the set because it was requested.\n{IN_FACTOR_ORDER}")
    );
    assert_eq!(
        folder.prints(&["f3.mtx", "--why", "2,2", "--csv"]),
        "pair,row,column,factor_row,factor_column\n1,2,2,,\n"
    );
    folder.write("pairs.txt", "2 2\n");
    let absent = "(3, 2) is not in the set: it was not requested, and nothing that was requested needs it.\n";
    assert_eq!(
        folder.prints(&[&requests[..], &["--why", "2,3"]].concat()),
        format!("{absent}{IN_FACTOR_ORDER}")
    );
    assert_eq!(
        folder.prints(&[&requests[..], &["--why", "2,3", "--csv"]].concat()),
        "pair,row,column,factor_row,factor_column\n"
    );
}

/// The numbers are the cells' own, but for the entries of the factor.
#[test]
fn why_with_a_permutation() {
    let folder = Folder::new("why-permutation");
    folder.write("f3.mtx", F3);
    // Cells 2, 3 and 1 are the factor's first, second and third column.
    folder.write("order.txt", "3\n1\n2\n");
    folder.write("pairs.txt", "2 2\n");
    let words = ["f3.mtx", "--permutation", "order.txt", "--requests", "pairs.txt"];
    assert_eq!(
        folder.prints(&[&words[..], &["--why", "1,3"]].concat()),
        "(3, 1) is in the set because (2, 2) was requested: a chain of 3 pairs leads to it, and none is shorter.\n\
         Cells have their own numbers, from 1; only entries of the factor have those of the factor's order.\n\
         1  (2, 2) was requested.\n\
         2  (3, 2) is needed because (2, 2) was requested and cell 3 is coupled to cell 2 by entry (2, 1) of the \
         factor.\n\
         3  (3, 1) is needed because (3, 2) is needed and cell 1 is coupled to cell 2 by entry (3, 1) of the factor.\n"
    );
    assert_eq!(
        folder.prints(&[&words[..], &["--why", "1,3", "--csv"]].concat()),
        "pair,row,column,factor_row,factor_column\n1,2,2,,\n2,3,2,2,1\n3,3,1,3,1\n"
    );
    let own = "Cells have their own numbers, from 1, and not those of the factor's order.\n";
    assert_eq!(
        folder.prints(&[&words[..], &["--why", "2,2"]].concat()),
        format!("(2, 2) is in the set because it was requested.\n{own}")
    );
    folder.write("pairs.txt", "1 1\n");
    assert_eq!(
        folder.prints(&[&words[..], &["--why", "2,2"]].concat()),
        format!("(2, 2) is not in the set: it was not requested, and nothing that was requested needs it.\n{own}")
    );
}

/// What the command refuses with `--why`, and that the limit of entries is none of it.
#[test]
fn why_refused() {
    let folder = Folder::new("why-refused");
    let head = "%%MatrixMarket matrix coordinate real general\n";
    folder.write("f2.mtx", F2);
    for (pair, of) in [
        ("3,1", "3,1"),
        ("1,3", "1,3"),
        ("1,18446744073709551615", "1,18446744073709551615"),
    ] {
        assert_eq!(
            folder.fails(&["f2.mtx", "--why", pair], 15),
            format!("--why {of}: refusal 5: the factor has 2 cells, numbered from 1")
        );
    }
    assert_eq!(
        folder.fails(&["--demo", "--why", "267,1", "--svg", "map.svg"], 15),
        "--why 267,1: refusal 5: the factor has 266 cells, numbered from 1"
    );
    assert!(!folder.0.join("map.svg").exists());
    // Requests and factor go before the pair.
    folder.write("list.txt", "1 1\n3 1\n");
    let refused = redstartgilt::Error::RequestOutOfRange;
    assert_eq!(
        folder.fails(&["f2.mtx", "--requests=list.txt", "--why=9,9"], 15),
        format!("list.txt:2: {refused}")
    );
    folder.write("f.mtx", format!("{head}2 2 2\n1 1 1\n2 2 -1\n"));
    let refused = redstartgilt::Error::NonPositiveDefinite;
    assert_eq!(folder.fails(&["f.mtx", "--why=9,9"], 16), format!("f.mtx: {refused}"));
    // Too many pairs for the variances, and not for a chain; on a map there are variances.
    let full_column = (1..=60).map(|row| format!("{row} 1 1\n")).collect::<String>();
    let diagonal = (2..=60).map(|row| format!("{row} {row} 1\n")).collect::<String>();
    folder.write("f.mtx", format!("{head}60 60 119\n{full_column}{diagonal}"));
    let chain = folder.prints(&["f.mtx", "--why=60,59", "--csv"]);
    assert_eq!(
        chain,
        "pair,row,column,factor_row,factor_column\n1,1,1,,\n2,59,1,59,1\n3,60,59,60,1\n"
    );
    folder.fails(&["f.mtx", "--why=60,59", "--grid=60x1", "--svg=map.svg"], 18);
    folder.fails(
        &["f.mtx", "--why=60,59", "--grid=60x1", "--svg=map.svg", "--limit=1829"],
        3,
    );
    folder.prints(&["f.mtx", "--why=60,59", "--grid=60x1", "--svg=map.svg", "--limit=1830"]);
}

/// The chain on the picture and on the page: marks with the numbers of its pairs, an arrow for each step, and the words.
#[test]
fn a_chain_on_a_map() {
    let folder = Folder::new("chain");
    folder.write("f3.mtx", F3);
    folder.write("pairs.txt", "1 1\n");
    let words = [
        "f3.mtx",
        "--requests=pairs.txt",
        "--grid=1x3",
        "--svg=map.svg",
        "--html=map.html",
    ];
    let printed = folder.prints(&[&words[..], &["--why=3,2"]].concat());
    assert!(
        printed.ends_with("\ncell column row pairs\n1 1 1 1-2\n2 1 2 2-3\n3 1 3 3\n"),
        "{printed}"
    );
    let (picture, page) = (folder.read("map.svg"), folder.read("map.html"));
    elements(&picture);
    for document in [&picture, &page] {
        assert_eq!(marks(document), ["1\u{2013}2", "2\u{2013}3", "3"]);
        let (_, chain) = document.split_once("<g id=\"chain\"").unwrap();
        let (chain, legend) = chain.split_once("</g>").unwrap();
        assert_eq!(chain.matches("class=\"step\"").count(), 2);
        assert_eq!(chain.matches("class=\"head\"").count(), 2);
        // Black in the requested pair, with corners in the pair asked for.
        let drawn = chain
            .lines()
            .filter(|line| line.contains("class=\"mark\""))
            .collect::<Vec<_>>();
        let black = drawn.iter().map(|mark| mark.contains("fill=\"#000000\" stroke"));
        assert_eq!(black.collect::<Vec<_>>(), [true, false, false]);
        let corners = drawn.iter().map(|mark| mark.contains("rx=\"0.00\""));
        assert_eq!(corners.collect::<Vec<_>>(), [false, true, true]);
        for words in [
            "requested pair",
            "pair between",
            "pair asked for",
            "step to the next pair",
        ] {
            assert_eq!(legend.matches(words).count(), 1, "{words}");
        }
    }
    assert!(picture.contains(">Chain of 3 pairs to (3, 2)</text>"));
    assert!(cells(&picture)[0].contains("<title>column 1, row 1: 14.0, chain: pairs 1 to 2 of 3</title>"));
    assert!(cells(&picture)[2].contains("<title>column 1, row 3: 1.0, chain: pair 3 of 3</title>"));
    let found = cells(&page);
    let of = |name: &str| found.iter().map(|cell| attribute(cell, name)).collect::<Vec<_>>();
    assert_eq!(
        of("data-chain"),
        [
            Some("pairs 1 to 2 of 3"),
            Some("pairs 2 to 3 of 3"),
            Some("pair 3 of 3")
        ]
    );
    assert_eq!(of("data-chain-order"), [Some("0"), Some("1"), Some("2")]);
    for words in [
        "<h2 id=\"why-title\">Chain of 3 pairs to (3, 2)</h2>",
        "<li>(1, 1) was requested.</li>",
        "cell 2 is coupled to cell 1 by entry (2, 1) of the factor.</li>",
        "cell 3 is coupled to cell 1 by entry (3, 1) of the factor.</li>",
        "Cells have the numbers of the factor's rows and columns, from 1.",
        "<dd id=\"on-chain\">",
        "id=\"next-on-chain\"",
        "<td>pairs 1 to 2 of 3</td></tr>",
    ] {
        assert!(page.contains(words), "{words}");
    }
    // A requested pair: a mark and no step.
    folder.prints(&[&words[..], &["--why=1,1"]].concat());
    let (picture, page) = (folder.read("map.svg"), folder.read("map.html"));
    elements(&picture);
    for document in [&picture, &page] {
        assert_eq!(marks(document), ["1"]);
        assert!(!document.contains("class=\"step\"") && !document.contains("pair asked for"));
        assert!(document.contains(">(1, 1) was requested<"));
    }
    assert!(page.contains("<td>none</td></tr>") && !page.contains("<ol>"));
    // A pair that is not in the set: the words alone.
    folder.write("pairs.txt", "2 2\n");
    folder.prints(&[&words[..], &["--why=3,2"]].concat());
    let (picture, page) = (folder.read("map.svg"), folder.read("map.html"));
    elements(&picture);
    for document in [&picture, &page] {
        assert!(document.contains(">(3, 2) is not in the set<"));
        assert!(!document.contains("id=\"chain\"") && !document.contains("requested pair"));
    }
    assert!(!page.contains("id=\"on-chain\"") && !page.contains("id=\"next-on-chain\""));
    // Nothing of it where it is not asked for.
    folder.prints(&words);
    assert!(!folder.read("map.html").contains("id=\"why\"") && !folder.read("map.svg").contains("chain"));
}

/// Where marks with all numbers would lie over one another, they have the first, and the legend says so.
#[test]
fn a_long_chain_on_small_cells() {
    let folder = Folder::new("small-cells");
    let head = "%%MatrixMarket matrix coordinate real general\n";
    let below = (2..=60).map(|row| format!("{row} {} 1\n", row - 1)).collect::<String>();
    let diagonal = (1..=60).map(|row| format!("{row} {row} 1\n")).collect::<String>();
    folder.write("path.mtx", format!("{head}60 60 119\n{diagonal}{below}"));
    folder.write("pairs.txt", "1 1\n");
    let words = [
        "path.mtx",
        "--requests=pairs.txt",
        "--svg=map.svg",
        "--html=map.html",
        "--why=5,5",
    ];
    for (grid, expected, number) in [
        ("60x1", ["1", "2", "4", "6", "8"], "number of its"),
        (
            "10x6",
            ["1\u{2013}2", "2\u{2013}4", "4\u{2013}6", "6\u{2013}8", "8\u{2013}9"],
            "numbers of its",
        ),
    ] {
        let printed = folder.prints(&[&words[..], &["--grid", grid]].concat());
        assert!(
            printed.ends_with("\n1 1 1 1-2\n2 2 1 2-4\n3 3 1 4-6\n4 4 1 6-8\n5 5 1 8-9\n"),
            "{printed}"
        );
        for document in [folder.read("map.svg"), folder.read("map.html")] {
            assert_eq!(marks(&document), expected, "{grid}");
            assert_eq!(document.matches(&format!(">A cell has the {number}")).count(), 1);
            // Both cells of a pair go the same way, on its two sides.
            let (_, chain) = document.split_once("<g id=\"chain\"").unwrap();
            let (chain, _) = chain.split_once("</g>").unwrap();
            let steps = chain.lines().filter_map(|line| line.split_once("class=\"step\" d=\""));
            let mut curves = steps
                .map(|(_, line)| line.split_once('"').unwrap().0)
                .collect::<Vec<_>>();
            assert_eq!(curves.len(), 8);
            curves.sort_unstable();
            curves.dedup();
            assert_eq!(curves.len(), 8, "{grid}");
        }
    }
}

/// The marks lie on the cells' places, also where cells and grid are numbered differently.
#[test]
fn a_chain_in_the_harbour() {
    let folder = Folder::new("harbour-chain");
    let words = ["--demo", "--requests", INNER_FAIRWAY, "--why=29,30", "--svg=map.svg"];
    let printed = folder.prints(&words);
    let (sentences, places) = printed.split_once("\ncell column row pairs\n").unwrap();
    assert_eq!(sentences.lines().count(), 2 + 4);
    let places = places
        .lines()
        .map(|line| line.split(' ').map(str::to_string).collect::<Vec<_>>())
        .collect::<Vec<_>>();
    let csv = folder.prints(&["--demo", "--csv"]);
    let document = folder.read("map.svg");
    elements(&document);
    let found = marks(&document);
    assert_eq!(found.len(), places.len());
    for (mark, place) in found.iter().zip(&places) {
        let [cell, column, row, pairs] = &place[..] else {
            panic!("{place:?}")
        };
        assert!(csv.contains(&format!("\n{cell},{column},{row},")));
        assert_eq!(mark.replace('\u{2013}', "-"), *pairs);
        // The middle of a mark is that of its cell; sides are 30, the map's corner is at (24, 108).
        let middle = |number: &str, from: f64| from + 30.0 * (number.parse::<f64>().unwrap() - 0.5);
        let line = document
            .lines()
            .find(|line| line.ends_with(&format!(">{mark}</text>")))
            .unwrap();
        let (_, text) = line.split_once("<text x=\"").unwrap();
        let (x, _) = text.split_once('"').unwrap();
        assert_eq!(x.parse::<f64>().unwrap(), middle(column, 24.0));
        let mark = line.split_once("class=\"mark\"").unwrap().1;
        let side = |name: &str| attribute(mark, name).unwrap().parse::<f64>().unwrap();
        assert!((side("y") + side("height") / 2.0 - middle(row, 108.0)).abs() < 0.02);
    }
}
