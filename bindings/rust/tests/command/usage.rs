//! Words that the command does not understand, and its help.

use crate::{Folder, F2, HEADER};

#[test]
fn bad_usage() {
    let folder = Folder::new("usage");
    folder.write("f2.mtx", F2);
    for (words, message) in [
        (&[][..], "no factor is given"),
        (&["--csv"], "no factor is given"),
        (&["f2.mtx", "f2.mtx"], "more than one factor is given"),
        (&["f2.mtx", "--colour"], "there is no option --colour"),
        (&["f2.mtx", "-"], "there is no option -"),
        (&["f2.mtx", "--limit"], "--limit needs a value"),
        (
            &["f2.mtx", "--limit", "-1"],
            "--limit needs a whole number up to 18446744073709551615, not -1",
        ),
        (
            &["f2.mtx", "--limit", "18446744073709551616"],
            "--limit needs a whole number up to 18446744073709551615, not 18446744073709551616",
        ),
        (&["f2.mtx", "--why"], "--why needs a value"),
        (
            &["f2.mtx", "--why", "2"],
            "--why needs two numbers above 0 as in 5,3, not 2",
        ),
        (
            &["f2.mtx", "--why=0,1"],
            "--why needs two numbers above 0 as in 5,3, not 0,1",
        ),
        (
            &["f2.mtx", "--why=1,2,3"],
            "--why needs two numbers above 0 as in 5,3, not 1,2,3",
        ),
        (
            &["--demo", "--why=1,18446744073709551616"],
            "--why needs two numbers above 0 as in 5,3, not 1,18446744073709551616",
        ),
        (&["f2.mtx", "--why=1,2", "--why=1,2"], "--why is given twice"),
        (
            &["f2.mtx", "--why=1,2", "--entries"],
            "--why does not go with --entries",
        ),
        (
            &["f2.mtx", "--why=1,2", "--limit=9"],
            "--why goes with --limit only where a map is drawn",
        ),
        (
            &["f2.mtx", "--operator=a.mtx", "--why=1,2"],
            "--operator does not go with --why",
        ),
        (&["f2.mtx", "--whole=yes"], "--whole takes no value"),
        (&["f2.mtx", "--whole", "--whole"], "--whole is given twice"),
        (&["f2.mtx", "--whole", "--why=1,2"], "--why does not go with --whole"),
        (&["--demo", "--whole"], "--demo does not go with --whole"),
        (&["f2.mtx", "--exact"], "--exact needs a value"),
        (
            &["f2.mtx", "--exact=54"],
            "--exact needs a whole number from 0 to 53, or least, not 54",
        ),
        (
            &["--exact", "f2.mtx"],
            "--exact needs a whole number from 0 to 53, or least, not f2.mtx",
        ),
        (&["f2.mtx", "--exact=4", "--exact=4"], "--exact is given twice"),
        (&["f2.mtx", "--exact=4", "--whole"], "--exact does not go with --whole"),
        (
            &["f2.mtx", "--exact=4", "--operator=a.mtx"],
            "--exact does not go with --operator",
        ),
        (&["f2.mtx", "--exact=4", "--why=1,2"], "--exact does not go with --why"),
        (
            &["f2.mtx", "--exact=4", "--pivots=d.txt"],
            "--exact does not go with --pivots",
        ),
        (&["--demo", "--exact=4"], "--demo does not go with --exact"),
        (&["f2.mtx", "--pivots"], "--pivots needs a value"),
        (
            &["f2.mtx", "--pivots=d.txt", "--pivots=d.txt"],
            "--pivots is given twice",
        ),
        (
            &["f2.mtx", "--whole", "--pivots=d.txt"],
            "--pivots does not go with --whole",
        ),
        (
            &["f2.mtx", "--pivots=d.txt", "--operator=a.mtx"],
            "--pivots does not go with --operator",
        ),
        (
            &["f2.mtx", "--pivots=d.txt", "--why=1,2"],
            "--pivots does not go with --why",
        ),
        (
            &["f2.mtx", "--pivots=d.txt", "--ranges=r.txt"],
            "--ranges needs --whole",
        ),
        (&["--demo", "--pivots=d.txt"], "--demo does not go with --pivots"),
        (
            &["f2.mtx", "--whole", "--track=t.txt"],
            "--track and --width need each other",
        ),
        (
            &["f2.mtx", "--whole", "--width=2"],
            "--track and --width need each other",
        ),
        (&["f2.mtx", "--track=t.txt", "--width=2"], "--track needs --whole"),
        (
            &["f2.mtx", "--width", "two"],
            "--width needs a whole number up to 18446744073709551615, not two",
        ),
        (
            &["f2.mtx", "--width=-1"],
            "--width needs a whole number up to 18446744073709551615, not -1",
        ),
        (
            &["f2.mtx", "--whole", "--track=t.txt", "--width=2", "--requests=a.txt"],
            "--track does not go with --requests",
        ),
        (
            &["f2.mtx", "--whole", "--track=t.txt", "--width=2", "--ranges=r.txt"],
            "--track does not go with --ranges",
        ),
        (&["f2.mtx", "--whole", "--ranges"], "--ranges needs a value"),
        (&["f2.mtx", "--ranges=r.txt"], "--ranges needs --whole"),
        (
            &["f2.mtx", "--whole", "--ranges=r.txt", "--requests=a.txt"],
            "--ranges does not go with --requests",
        ),
        (
            &["f2.mtx", "--whole", "--ranges=r.txt", "--entries"],
            "--ranges does not go with --entries",
        ),
        (
            &["f2.mtx", "--whole", "--ranges=r.txt", "--grid=2x1", "--svg=map.svg"],
            "--ranges does not go with --grid",
        ),
        (
            &["f2.mtx", "--whole", "--operator=a.mtx"],
            "--operator does not go with --whole",
        ),
        (&["f2.mtx", "--csv=yes"], "--csv takes no value"),
        (&["f2.mtx", "--csv", "--csv"], "--csv is given twice"),
        (
            &["f2.mtx", "--grid", "2"],
            "--grid needs two numbers above 0 as in 24x16, not 2",
        ),
        (&["f2.mtx", "--grid", "2x1"], "--grid needs --svg or --html"),
        (&["f2.mtx", "--svg", "map.svg"], "--svg needs --grid"),
        (&["f2.mtx", "--html", "map.svg"], "--html needs --grid"),
        (&["f2.mtx", "--html"], "--html needs a value"),
        (
            &["f2.mtx", "--grid=2x1", "--svg=map.svg", "--html=map.svg"],
            "--svg and --html need two files",
        ),
        (
            &["f2.mtx", "--svg", "map.svg", "--grid", "2x2"],
            "--grid 2x2 does not have the factor's 2 cells",
        ),
        (&["--demo", "f2.mtx"], "--demo does not go with a factor"),
        (&["--demo", "--limit", "3"], "--demo does not go with --limit"),
        (&["--demo", "--entries"], "--demo does not go with --entries"),
        (&["--demo", "--grid", "24x16"], "--demo does not go with --grid"),
        (&["--demo", "--operator", "a.mtx"], "--demo does not go with --operator"),
        (&["--demo", "--with", "a.mtx"], "--with needs --operator"),
        (&["f2.mtx", "--operator"], "--operator needs a value"),
        (&["f2.mtx", "--with", "a.mtx"], "--with needs --operator"),
        (&["f2.mtx", "--operator=a.mtx", "--pairs=b.txt"], "--pairs needs --with"),
        (
            &["f2.mtx", "--operator=a.mtx", "--requests=b.txt"],
            "--operator does not go with --requests",
        ),
        (
            &["f2.mtx", "--operator=a.mtx", "--limit=3"],
            "--operator does not go with --limit",
        ),
        (
            &["f2.mtx", "--operator=a.mtx", "--entries"],
            "--operator does not go with --entries",
        ),
        (
            &["f2.mtx", "--operator=a.mtx", "--grid=2x1", "--svg=map.svg"],
            "--operator does not go with --grid",
        ),
        (
            &["--demo", "--permutation", "f2.mtx"],
            "--demo does not go with --permutation",
        ),
        (
            &["--demo", "--svg=map.svg", "--html=map.svg"],
            "--svg and --html need two files",
        ),
    ] {
        assert_eq!(folder.fails(words, 2), format!("{message}; try --help"), "{words:?}");
    }
    assert!(!folder.0.join("map.svg").exists());
}

#[test]
fn help_and_version() {
    let folder = Folder::new("help");
    let help = folder.prints(&["--help"]);
    for word in [
        "--requests",
        "--permutation",
        "--write-requests",
        "--operator",
        "--with",
        "--pairs",
        "--pivots",
        "--limit",
        "--entries",
        "--whole",
        "--ranges",
        "--track",
        "--width",
        "--why",
        "--csv",
        "--svg",
        "--html",
        "--grid",
        "--demo",
        "--version",
    ] {
        assert!(help.contains(word), "{word}");
    }
    for error in redstartgilt::Error::ALL {
        let listed = help.contains(&format!("  {}  {error}\n", 10 + error.number()));
        assert!(listed, "{error}");
    }
    assert!(help.contains(&format!("\n  {HEADER}\n")));
    assert_eq!(
        folder.prints(&["--version"]),
        format!("redstartgilt {}\n", env!("CARGO_PKG_VERSION"))
    );
    // A name that begins with a dash.
    folder.write("--f.mtx", F2);
    assert_eq!(
        folder.prints(&["--csv", "--", "--f.mtx"]),
        "cell,variance,covered\n1,5.0,yes\n2,1.0,yes\n"
    );
}

/// The options on orders, Q, land, maps, entries in a file and the demo's files.
#[test]
fn bad_usage_of_further_options() {
    let folder = Folder::new("further-usage");
    for (words, message) in [
        (&["f2.mtx", "--matrix"][..], "--matrix needs a value"),
        (
            &["f2.mtx", "--matrix=a.mtx", "--matrix=b.mtx"],
            "--matrix is given twice",
        ),
        (
            &["f2.mtx", "--why=1,2", "--matrix=a.mtx"],
            "--why does not go with --matrix",
        ),
        (
            &["f2.mtx", "--operator=a.mtx", "--matrix=b.mtx"],
            "--operator does not go with --matrix",
        ),
        (
            &["f2.mtx", "--whole", "--ranges=r.txt", "--matrix=b.mtx"],
            "--ranges does not go with --matrix",
        ),
        (
            &["f2.mtx", "--whole", "--track=t.txt", "--width=2", "--matrix=b.mtx"],
            "--track does not go with --matrix",
        ),
        (&["--demo", "--matrix=b.mtx"], "--demo does not go with --matrix"),
        (
            &["f2.mtx", "--only-requested"],
            "--only-requested needs --entries or --matrix",
        ),
        (&["f2.mtx", "--only-requested=1"], "--only-requested takes no value"),
        (&["f2.mtx", "--mask", "m.txt"], "--mask needs --svg, --html or --csv"),
        (
            &["f2.mtx", "--mask=m.txt", "--csv", "--entries"],
            "--mask goes with --entries only where a map is drawn",
        ),
        (
            &["f2.mtx", "--mask=m.txt", "--csv", "--why=1,2"],
            "--mask goes with --why only where a map is drawn",
        ),
        (
            &[
                "f2.mtx",
                "--whole",
                "--track=t.txt",
                "--width=2",
                "--mask=m.txt",
                "--csv",
            ],
            "--mask goes with --track only where a map is drawn",
        ),
        (&["f2.mtx", "--mask"], "--mask needs a value"),
        (&["f2.mtx", "--mask=", "--csv"], "--mask needs the name of a file"),
        (&["f2.mtx", "--mask=m.txt", "--mask=m.txt"], "--mask is given twice"),
        (
            &["f2.mtx", "--operator=a.mtx", "--mask=m.txt", "--svg=map.svg"],
            "--operator does not go with --mask",
        ),
        (
            &["f2.mtx", "--operator=a.mtx", "--title=Areas"],
            "--operator does not go with --title",
        ),
        (
            &["f2.mtx", "--whole", "--ranges=r.txt", "--unit=m"],
            "--ranges does not go with --unit",
        ),
        (&["--demo", "--mask=m.txt"], "--demo does not go with --mask"),
        (&["--demo", "--unit=ft"], "--demo does not go with --unit"),
        (&["f2.mtx", "--title= "], "--title needs text, in one line"),
        (&["f2.mtx", "--title=a\nb"], "--title needs text, in one line"),
        (&["f2.mtx", "--unit", ""], "--unit needs text, in one line"),
        (
            &["f2.mtx", "--csv", "--title=Depths"],
            "--title goes with --csv only where a map is drawn",
        ),
        (
            &["f2.mtx", "--csv", "--mask=m.txt", "--unit=m"],
            "--unit goes with --csv only where a map is drawn",
        ),
        (
            &["f2.mtx", "--range=2"],
            "--range needs two numbers, the first below the second, as in 0.01,2.5, not 2",
        ),
        (
            &["f2.mtx", "--range=2,2"],
            "--range needs two numbers, the first below the second, as in 0.01,2.5, not 2,2",
        ),
        (&["f2.mtx", "--range=1,2"], "--range needs --svg or --html"),
        (&["f2.mtx", "--log"], "--log needs --svg or --html"),
        (&["f2.mtx", "--log=yes"], "--log takes no value"),
        (&["f2.mtx", "--log", "--log"], "--log is given twice"),
        (
            &["--demo", "--svg=map.svg", "--log", "--range=0,2"],
            "--log needs a --range from above 0, not from 0.0",
        ),
        (&["f2.mtx", "--write-files=out"], "--write-files needs --demo"),
        (
            &["--demo", "--write-files=out", "--requests=out/inner-fairway.mtx"],
            "--write-files does not go with --requests",
        ),
        (
            &["--demo", "--write-files=out", "--svg=map.svg"],
            "--write-files does not go with --svg",
        ),
    ] {
        assert_eq!(folder.fails(words, 2), format!("{message}; try --help"), "{words:?}");
    }
}

#[test]
fn help_of_further_options() {
    let folder = Folder::new("further-help");
    let help = folder.prints(&["--help"]);
    let sections = help.split_once("\nA factor that is held against Q:\n").unwrap().1;
    let (sections, _) = sections.split_once("\nA requests file whose").unwrap();
    for word in [
        "--precision FILE",
        "--cell-to-place FILE",
        "--place-to-cell FILE",
        "--matrix FILE",
        "--only-requested",
        "--mask FILE",
        "--title TEXT",
        "--unit TEXT",
        "--range LOW,HIGH",
        "--log",
        "--write-files FOLDER",
        "-",
    ] {
        // On a line of its own, and below it what it does.
        let told = format!("\n{sections}").contains(&format!("\n  {word}\n      "));
        assert!(told, "{word}");
    }
    for line in sections.lines() {
        assert!(line.len() <= 80 && line.trim_end() == line, "{line}");
    }
}
