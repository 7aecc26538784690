//! Maps, alone and on a page.

use crate::document::{attribute, cells, elements};
use crate::{Folder, F3, INNER_FAIRWAY, WIDE};

#[test]
fn a_picture_of_a_factor() {
    let folder = Folder::new("picture");
    folder.write("a<b>&\"c\".mtx", F3);
    folder.prints(&["a<b>&\"c\".mtx", "--grid", "3x1", "--svg", "map.svg"]);
    let document = folder.read("map.svg");
    elements(&document);
    assert!(document
        .contains("<text x=\"24\" y=\"30\" font-size=\"18\">Variances of a&lt;b&gt;&amp;&quot;c&quot;.mtx</text>"));
    assert_eq!(cells(&document).len(), 3);
    assert!(cells(&document)[0].contains("fill=\"#fde725\"><title>column 1, row 1: 14.0</title>"));
    assert!(cells(&document)[1].contains("fill=\"#440154\"><title>column 2, row 1: 1.0</title>"));
    assert!(document.contains("linearGradient"));
    assert!(document.contains(">0 of 3 cells not computed</text>"));
    assert!(!document.contains(">not computed</text>") && !document.contains("<pattern"));
    // A cell that is not computed is hatched and has a key.
    folder.write("f3.mtx", F3);
    folder.write("pairs.txt", "2 2\n");
    folder.prints(&["f3.mtx", "--grid", "1x3", "--svg", "map.svg", "--requests", "pairs.txt"]);
    let document = folder.read("map.svg");
    elements(&document);
    for missing in [0, 2] {
        let words = format!("<title>column 1, row {}: not computed</title>", missing + 1);
        assert!(cells(&document)[missing].contains(&words));
        assert!(cells(&document)[missing].contains("fill=\"url(#not-computed)\""));
    }
    assert!(cells(&document)[1].contains("<title>column 1, row 2: 1.0</title>"));
    assert!(document.contains("<pattern id=\"not-computed\""));
    assert!(document.contains(">not computed</text>"));
    assert!(document.contains(">2 of 3 cells not computed</text>"));
    assert!(!document.contains("not-finite") && !document.contains("land"));
    // A variance that is not finite is computed, and is told from one that is not.
    folder.write("wide.mtx", WIDE);
    folder.write("pairs.txt", "1 1\n2 2\n");
    folder.prints(&[
        "wide.mtx",
        "--grid",
        "1x3",
        "--svg",
        "map.svg",
        "--requests",
        "pairs.txt",
    ]);
    let document = folder.read("map.svg");
    elements(&document);
    assert!(cells(&document)[0].contains("<title>column 1, row 1: 0.0</title>"));
    assert!(cells(&document)[1].contains("fill=\"url(#not-finite)\"><title>column 1, row 2: inf</title>"));
    assert!(cells(&document)[2].contains("fill=\"url(#not-computed)\""));
    assert!(document.contains(">not finite</text>") && document.contains(">1 of 3 cells not computed</text>"));
    // No variance at all, so no scale.
    folder.write("pairs.txt", "");
    folder.prints(&["f3.mtx", "--grid", "1x3", "--svg", "map.svg", "--requests", "pairs.txt"]);
    let document = folder.read("map.svg");
    elements(&document);
    assert!(!document.contains("linearGradient"));
    assert!(folder
        .fails(&["f3.mtx", "--grid", "1x3", "--svg", "no/map.svg"], 1)
        .starts_with("no/map.svg: "));
}

#[test]
fn a_page_of_a_factor() {
    let folder = Folder::new("page");
    folder.write("a<b>&\"c\".mtx", WIDE);
    folder.write("pairs.txt", "1 1\n2 2\n");
    let words = ["--grid", "3x1", "--html", "map.html", "--requests", "pairs.txt"];
    let printed = folder.prints(&[&["a<b>&\"c\".mtx"], &words[..]].concat());
    assert!(printed.ends_with("3 not computed\n"));
    let page = folder.read("map.html");
    assert!(page.starts_with("<!DOCTYPE html>\n<html lang=\"en\">"));
    let title = "Variances of a&lt;b&gt;&amp;&quot;c&quot;.mtx";
    assert!(page.contains(&format!("<title>{title}</title>")) && page.contains(&format!("<h1>{title}</h1>")));
    let found = cells(&page);
    let of = |name: &str| found.iter().map(|cell| attribute(cell, name)).collect::<Vec<_>>();
    assert_eq!(of("data-cell"), [Some("1"), Some("2"), Some("3")]);
    assert_eq!(
        of("data-coverage"),
        [Some("computed"), Some("computed"), Some("not computed")]
    );
    assert_eq!(of("data-variance"), [Some("0.0"), Some("inf"), None]);
    assert_eq!(of("data-deviation"), [Some("0.0000"), None, None]);
    assert_eq!(of("fill")[1..], [Some("url(#not-finite)"), Some("url(#not-computed)")]);
    for words in [
        "2 of 3 cells computed, <strong>1 not computed</strong>",
        "not computed: 1 cell</li>",
        "not finite: 1 cell</li>",
        "<dt>status</dt><dd>Complete</dd>",
        "<dt>pairs requested</dt><dd>2</dd>",
        "<dt>pairs computed</dt><dd>2</dd>",
        "<dt>pairs in the factor</dt><dd>3</dd>",
        "<dt>limit of pairs</dt><dd>30</dd>",
        "<dt>computed / in the factor</dt><dd>0.6667</dd>",
        "<tr><th scope=\"row\">1</th><td>1</td><td>1</td><td>computed</td><td>0.0</td><td>0.0000</td></tr>",
        "<tr><th scope=\"row\">3</th><td>3</td><td>1</td><td>not computed</td><td>none</td><td>none</td></tr>",
        "aria-live=\"polite\"",
        "prefers-color-scheme: dark",
        "id=\"next\"",
    ] {
        assert!(page.contains(words), "{words}");
    }
    // With every cell computed there is nothing to look for.
    folder.write("f3.mtx", F3);
    folder.prints(&["f3.mtx", "--grid", "3x1", "--html", "map.html", "--svg", "map.svg"]);
    let page = folder.read("map.html");
    assert!(page.contains("3 of 3 cells computed, <strong>0 not computed</strong>"));
    assert!(!page.contains("<button") && !page.contains("<pattern"));
    elements(&folder.read("map.svg"));
    // With none computed there is no scale and no least variance.
    folder.write("pairs.txt", "");
    folder.prints(&[&["f3.mtx"], &words[..]].concat());
    let page = folder.read("map.html");
    assert!(page.contains("0 of 3 cells computed, <strong>3 not computed</strong>"));
    assert!(!page.contains("least variance") && !page.contains(">shade<"));
    assert!(!page.contains("data-variance") && !page.contains(">0.0<"));
    assert!(folder
        .fails(&["f3.mtx", "--grid", "1x3", "--html", "no/map.html"], 1)
        .starts_with("no/map.html: "));
}

/// Variances 4, 1, 0.25 and 0.0.
const FOUR: &str = "\
%%MatrixMarket matrix coordinate real general
4 4 4
1 1 0.5
2 2 1
3 3 2
4 4 1e200
";

/// The colours of the scale.
const ENDS: [&str; 2] = ["#440154", "#fde725"];

/// A title and a unit are shown on the map, the page and in the summary.
#[test]
fn title_and_unit() {
    let folder = Folder::new("title");
    folder.write("f3.mtx", F3);
    let maps = ["--grid", "3x1", "--svg", "map.svg", "--html", "map.html"];
    let words = ["f3.mtx", "--title", "Depths <2026> & \"north\"", "--unit", "m"];
    let printed = folder.prints(&[&words[..], &maps[..]].concat());
    assert!(
        printed.starts_with("Depths <2026> & \"north\"\nValues are in m\u{b2}.\nComplete: "),
        "{printed}"
    );
    let title = "Depths &lt;2026&gt; &amp; &quot;north&quot;";
    let [picture, page] = ["map.svg", "map.html"].map(|file| folder.read(file));
    elements(&picture);
    assert!(picture.contains(&format!("<title>{title}</title>")));
    assert!(picture.contains(&format!(" font-size=\"18\">{title}</text>")));
    assert!(picture.contains(">variance, m\u{b2}</text>"));
    for words in [
        &format!("<title>{title}</title>"),
        &format!("<h1>{title}</h1>"),
        "<dt>variance, m\u{b2}</dt>",
        "<dt>deviation, m</dt>",
        "<th scope=\"col\">variance, m\u{b2}</th><th scope=\"col\">deviation, m</th>",
    ] {
        assert!(page.contains(words), "{words}");
    }
    // They stand before a summary without a map too, and not in lines of values.
    assert_eq!(folder.prints(&words), printed);
    let csv = folder.prints(&[&words[..], &maps[..], &["--csv"]].concat());
    assert!(csv.starts_with("cell,variance,covered\n1,14.0,yes\n"));
    // A unit of more than letters is squared as a whole.
    let printed = folder.prints(&["f3.mtx", "--unit", "m/s"]);
    assert!(printed.starts_with("Values are in (m/s)\u{b2}.\nComplete: "));
    // A title of one's own does not hide that the values are exact.
    for exact in [&["--whole"][..], &["--exact", "0"]] {
        folder.prints(&[exact, &words[..], &maps[..]].concat());
        let title = format!("<title>{title} (exact variances)</title>");
        assert!(["map.svg", "map.html"]
            .iter()
            .all(|file| folder.read(file).contains(&title)));
    }
}

/// Two maps of one range have one scale.
#[test]
fn a_range_of_colours() {
    let folder = Folder::new("range");
    folder.write("four.mtx", FOUR);
    let maps = ["four.mtx", "--grid", "4x1", "--svg", "map.svg", "--html", "map.html"];
    folder.prints(&[&maps[..], &["--range", "0.25,1"]].concat());
    let [picture, page] = ["map.svg", "map.html"].map(|file| folder.read(file));
    elements(&picture);
    for document in [&picture, &page] {
        let found = cells(document);
        let fills = found.iter().map(|cell| attribute(cell, "fill").unwrap());
        assert_eq!(fills.collect::<Vec<_>>(), [ENDS[1], ENDS[1], ENDS[0], ENDS[0]]);
        for words in [
            ">1.00<",
            ">0.2500<",
            "above the range: 1 cell<",
            "below the range: 1 cell<",
        ] {
            assert!(document.contains(words), "{words}");
        }
    }
    // Within it nothing is counted, and the ends are those of the range.
    folder.prints(&[&maps[..], &["--range", "-1,8"]].concat());
    let [picture, page] = ["map.svg", "map.html"].map(|file| folder.read(file));
    for document in [&picture, &page] {
        assert!(!document.contains("the range") && document.contains(">8.00<") && document.contains(">-1.00<"));
        assert!(cells(document)
            .iter()
            .all(|cell| ENDS.iter().all(|end| !cell.contains(end))));
    }
}

/// What has no place on a logarithmic scale has a pattern.
#[test]
fn a_logarithmic_scale() {
    let folder = Folder::new("logarithmic");
    folder.write("four.mtx", FOUR);
    let maps = [
        "four.mtx", "--grid", "4x1", "--svg", "map.svg", "--html", "map.html", "--log",
    ];
    folder.prints(&maps);
    let [picture, page] = ["map.svg", "map.html"].map(|file| folder.read(file));
    elements(&picture);
    for document in [&picture, &page] {
        let found = cells(document);
        let fills = found
            .iter()
            .map(|cell| attribute(cell, "fill").unwrap())
            .collect::<Vec<_>>();
        assert_eq!((fills[0], fills[2], fills[3]), (ENDS[1], ENDS[0], "url(#not-positive)"));
        // By the logarithm 1 is in the middle between 0.25 and 4.
        assert_eq!(fills[1], "#21918c");
        assert!(document.contains("<pattern id=\"not-positive\""));
        assert!(document.contains("logarithmic") && document.contains(">1.00<"));
    }
    assert!(picture.contains(">at or below 0</text>") && page.contains("at or below 0: 1 cell</li>"));
    // The number is told as ever.
    assert!(cells(&page)[3].contains("data-variance=\"0.0\"") && cells(&picture)[3].contains(": 0.0</title>"));
}

/// The page needs no other file and no network.
#[test]
fn a_page_by_itself() {
    let folder = Folder::new("by-itself");
    folder.prints(&["--demo", "--requests", INNER_FAIRWAY, "--html", "map.html"]);
    let page = folder.read("map.html");
    for words in [
        "http:", "https:", "//", " src=", "href", "@import", "import(", "fetch(", "XMLHttp",
    ] {
        let in_comments = |line: &&str| words == "//" && line.trim_start().starts_with("// ");
        let found = page.lines().find(|line| line.contains(words) && !in_comments(line));
        assert_eq!(found, None, "{words}");
    }
    let references = page.split("url(").skip(1);
    assert!(references.clone().count() > 0);
    assert!(references.into_iter().all(|rest| rest.starts_with('#')));
    assert!(page.contains("http-equiv=\"Content-Security-Policy\" content=\"default-src 'none'; "));
    assert!(!page.chars().any(|letter| letter.is_control() && letter != '\n'));
}
