//! The harbour that the command has with it.

use crate::document::{cells, elements};
use crate::{Folder, HEADER, INNER_FAIRWAY};

#[test]
fn the_demo() {
    let folder = Folder::new("demo");
    let table = folder.prints(&["--demo"]);
    assert!(table.starts_with("A harbour of 24 x 16 cells"));
    assert!(table.contains("Complete: "));
    assert!(table.contains("mean depth of the turning basin"));
    // The two areas lie side by side, so their volumes are wrong together.
    assert!(table.contains("\nTwo dredging areas, 12 and 12 cells of 10 x 10 m;"));
    let value = |name: &str| {
        let line = table.lines().find(|line| line.starts_with(name)).unwrap();
        line.rsplit(' ').next().unwrap().parse::<f64>().unwrap()
    };
    let (west, east) = (
        value("volume over the western dredging area"),
        value("volume over the eastern dredging area"),
    );
    let covariance = value("covariance of the two volumes");
    assert!(covariance > 0.0);
    assert_eq!(value("difference of the two volumes"), west + east - 2.0 * covariance);
    assert!(table.contains("\n0 of 266 cells not computed\n"));
    // The calibration basin, whose floats are the exact entries.
    let basin = "\
A calibration basin of 4 cells, its factor in whole numbers: the inverse, exact and as floats.
Complete: 10 pairs requested, 10 computed, 8 in the factor, limit 80
Exact: computed in whole numbers, and nothing was rounded.
10 of 10 floats are equal to the exact entry.
row column        exact  float
";
    assert!(table.contains(basin), "{table}");
    assert_eq!(
        table.lines().last(),
        Some("  4      4            1  1.0"),
        "the basin is last"
    );
    let csv = folder.prints(&["--demo", "--csv", "--svg", "map.svg"]);
    let variances = csv
        .lines()
        .skip(1)
        .map(|line| line.strip_suffix(",yes").unwrap())
        .map(|line| line.rsplit(',').next().unwrap().parse::<f64>().unwrap())
        .collect::<Vec<_>>();
    assert!(variances.iter().all(|variance| *variance > 0.0 && *variance < 64.0));
    let document = folder.read("map.svg");
    let names = elements(&document);
    assert_eq!(cells(&document).len(), 24 * 16);
    assert_eq!(document.matches(": land</title>").count(), 24 * 16 - variances.len());
    assert_eq!(names.iter().filter(|name| *name == "stop").count(), 5);
    assert_eq!(folder.prints(&["--demo", "--svg", "again.svg"]), table);
    assert_eq!(folder.read("again.svg"), document);
}

/// The harbour with a part of its cells asked for: the others are told as not computed everywhere.
#[test]
fn the_demo_with_requests() {
    let folder = Folder::new("demo-requests");
    let requests = ["--demo", "--requests", INNER_FAIRWAY];
    let all = folder.prints(&["--demo", "--csv"]);
    let some = folder.prints(&[&requests[..], &["--csv", "--svg", "map.svg", "--html", "map.html"]].concat());
    assert_eq!(all.lines().next(), Some("cell,column,row,variance,covered"));
    let value = |line: &str| line.split(',').nth(3).unwrap().parse::<f64>().unwrap();
    let (mut computed, mut missing) = (0, 0);
    for (one, other) in all.lines().zip(some.lines()).skip(1) {
        match other.strip_suffix(",,no") {
            Some(place) => {
                assert!(one.starts_with(&format!("{place},")));
                missing += 1;
            }
            None => {
                assert!(other.ends_with(",yes"));
                assert!((value(one) - value(other)).abs() <= 1e-12 * value(one));
                computed += 1;
            }
        }
    }
    assert_eq!((computed, missing), (98, 168));
    let table = folder.prints(&requests);
    assert!(table.contains("\n98 of 266 cells computed, 0 of them negative, the least 0.009"));
    assert!(table.contains("\n168 of 266 cells not computed\n"));
    let shoal = table.lines().find(|line| line.starts_with("shoal")).unwrap();
    assert!(shoal.ends_with("  lead line         none  not computed"), "{shoal}");
    let document = folder.read("map.svg");
    elements(&document);
    let filled = |words: &str| cells(&document).iter().filter(|cell| cell.contains(words)).count();
    assert_eq!(filled("fill=\"url(#not-computed)\""), missing);
    assert_eq!(filled(": not computed</title>"), missing);
    assert_eq!(filled("fill=\"url(#land)\""), 24 * 16 - computed - missing);
    assert_eq!(filled(": land</title>"), 24 * 16 - computed - missing);
    assert_eq!(filled("fill=\"#"), computed);
    assert!(document.contains(">not computed</text>") && document.contains(">land</text>"));
    let page = folder.read("map.html");
    assert_eq!(page.matches("data-coverage=\"not computed\"").count(), missing);
    assert_eq!(
        page.matches("data-coverage=\"land\"").count(),
        24 * 16 - computed - missing
    );
    // The cells are those of the harbour, and the file is read as that of a factor.
    folder.write("f3.mtx", format!("{HEADER}\n3 3 0\n"));
    assert_eq!(
        folder.fails(&["--demo", "--requests", "f3.mtx"], 14),
        "f3.mtx: refusal 4: the file is of dimension 3, the factor of dimension 266"
    );
}

/// The files of the demo, and how the command takes them.
const EXAMPLES: &str = concat!(env!("CARGO_MANIFEST_DIR"), "/examples");

/// The files in the repository are those that the demo writes.
#[test]
fn the_demo_as_files() {
    let folder = Folder::new("demo-files");
    let printed = folder.prints(&["--demo", "--write-files", "new/files"]);
    let mut names = std::fs::read_dir(folder.0.join("new/files"))
        .unwrap()
        .map(|file| file.unwrap().file_name().into_string().unwrap())
        .collect::<Vec<_>>();
    names.sort();
    assert_eq!(
        names,
        [
            "harbour-areas.mtx",
            "harbour-factor.mtx",
            "harbour-mask.txt",
            "harbour-permutation.txt",
            "harbour-precision.mtx",
            "inner-fairway.mtx",
        ]
    );
    assert_eq!(printed.lines().count(), names.len());
    for name in names {
        assert!(
            printed.lines().any(|line| line == format!("new/files/{name}")),
            "{printed}"
        );
        let expected = std::fs::read(format!("{EXAMPLES}/{name}")).unwrap();
        // Not by a message of all their lines.
        assert!(
            folder.read(&format!("new/files/{name}")).as_bytes() == expected,
            "{name}"
        );
    }
    folder.write("file", "");
    assert!(folder
        .fails(&["--demo", "--write-files", "file"], 1)
        .starts_with("file: "));
}

/// The command gives the same of the files as of the demo.
#[test]
fn the_map_of_the_files_is_that_of_the_demo() {
    let folder = Folder::new("demo-from-files");
    let file = |name: &str| format!("{EXAMPLES}/{name}");
    let [factor, permutation, mask, areas] = [
        "harbour-factor.mtx",
        "harbour-permutation.txt",
        "harbour-mask.txt",
        "harbour-areas.mtx",
    ]
    .map(file);
    let factor = [&factor, "--permutation", &permutation];
    let words = [
        "--mask",
        &mask,
        "--title",
        "Harbour: variance of the depth",
        "--unit",
        "m",
    ];
    for requests in [&[][..], &["--requests", INNER_FAIRWAY]] {
        let written = |name: &str, words: &[&str]| {
            let files = [".svg", ".html"].map(|kind| format!("{name}{kind}"));
            let csv = folder.prints(&[words, requests, &["--csv", "--svg", &files[0], "--html", &files[1]]].concat());
            (csv, files.map(|file| folder.read(&file)))
        };
        let (demo, demo_maps) = written("demo", &["--demo"]);
        let (csv, maps) = written("files", &[&factor[..], &words[..]].concat());
        // The demo has no deviations.
        for (line, of_demo) in csv.lines().zip(demo.lines()) {
            assert_eq!(line.rsplit_once(',').unwrap().0, of_demo);
        }
        assert_eq!(csv.lines().count(), demo.lines().count());
        assert!(maps == demo_maps);
    }
    // The factor is that of the precision matrix.
    let precision = file("harbour-precision.mtx");
    folder.prints(&[&factor[..], &["--precision", &precision]].concat());
    // The areas: a mean depth, two volumes and their covariance.
    let sums = folder.prints(&[&factor[..], &["--operator", &areas, "--with", &areas, "--csv"]].concat());
    let table = folder.prints(&["--demo"]);
    for (place, name) in [
        ("1,1,", "mean depth of the turning basin"),
        ("2,2,", "volume over the western dredging area"),
        ("3,3,", "volume over the eastern dredging area"),
        ("2,3,", "covariance of the two volumes"),
    ] {
        let found = sums.lines().find_map(|line| line.strip_prefix(place)).unwrap();
        let line = table.lines().find(|line| line.starts_with(name)).unwrap();
        let [found, expected] = [found, line.rsplit(' ').next().unwrap()].map(|number| number.parse::<f64>().unwrap());
        assert!(
            (found - expected).abs() <= 1e-12 * expected,
            "{name}: {found} {expected}"
        );
    }
}
