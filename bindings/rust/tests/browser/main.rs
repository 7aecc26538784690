//! The page and the picture in a browser without a window, where one is installed: what they show, and that pointer,
//! keys and touch reach every cell.

mod protocol;

use protocol::{Browser, Page};
use std::io::Write;
use std::path::{Path, PathBuf};
use std::process::Command;
use std::thread;
use std::time::{Duration, Instant};

const COLUMNS: usize = 24;
const ROWS: usize = 16;

/// The harbour with the inner fairway asked for.
struct Harbour {
    html: PathBuf,
    svg: PathBuf,
    /// Cell, column, row, variance (empty for one that is not computed), by cell.
    lines: Vec<[String; 4]>,
    /// Cell, column, row and pairs of each cell of the chain, in its order; none where no chain is asked for.
    chain: Vec<[String; 4]>,
}

/// The fields of lines.
fn fields(text: &str, gap: char) -> Vec<[String; 4]> {
    let lines = text.lines().map(|line| {
        let mut fields = line.split(gap).map(str::to_string);
        std::array::from_fn(|_| fields.next().unwrap())
    });
    lines.collect()
}

impl Harbour {
    /// With the chain to a pair, where it is given.
    fn new(folder: &Path, why: Option<&str>) -> Self {
        let requests = Path::new(env!("CARGO_MANIFEST_DIR")).join("examples/inner-fairway.mtx");
        let run = |words: &[&str]| {
            let output = Command::new(env!("CARGO_BIN_EXE_redstartgilt"))
                .args(["--demo", "--requests"])
                .arg(&requests)
                .args(words)
                .current_dir(folder)
                .output()
                .unwrap();
            assert!(output.status.success());
            String::from_utf8(output.stdout).unwrap()
        };
        let name = if why.is_some() { "chain" } else { "map" };
        let [html, svg] = ["html", "svg"].map(|kind| format!("{name}.{kind}"));
        let csv = run(&["--csv", "--html", &html, "--svg", &svg]);
        let chain = why.map_or(String::new(), |why| {
            let printed = run(&["--why", why, "--html", &html, "--svg", &svg]);
            let (_, cells) = printed.split_once("\ncell column row pairs\n").unwrap();
            cells.to_string()
        });
        Self {
            html: folder.join(html),
            svg: folder.join(svg),
            lines: fields(csv.split_once('\n').unwrap().1, ','),
            chain: fields(&chain, ' '),
        }
    }

    /// The pairs of a cell of the chain as the page shows them.
    fn pairs_at(&self, column: usize, row: usize) -> Option<String> {
        let place = [column.to_string(), row.to_string()];
        let [_, _, _, pairs] = self.chain.iter().find(|line| line[1..3] == place)?;
        let [_, _, _, last] = self.chain.last().unwrap();
        let count = last.rsplit('-').next().unwrap();
        Some(match pairs.split_once('-') {
            Some((first, last)) => format!("pairs {first} to {last} of {count}"),
            None => format!("pair {pairs} of {count}"),
        })
    }

    fn at(&self, column: usize, row: usize) -> Option<&[String; 4]> {
        let place = (column.to_string(), row.to_string());
        self.lines
            .iter()
            .find(|line| (&line[1], &line[2]) == (&place.0, &place.1))
    }

    /// Place, coverage, variance and deviation as the page shows them, the deviation as a number.
    fn expected(&self, column: usize, row: usize) -> ([String; 3], Option<f64>) {
        let place = format!("column {column}, row {row}");
        match self.at(column, row) {
            None => ([place, "land".into(), "none".into()], None),
            Some([cell, _, _, variance]) => {
                let place = format!("{place}, cell {cell}");
                match variance.parse::<f64>() {
                    Ok(number) => ([place, "computed".into(), variance.clone()], Some(number.sqrt())),
                    Err(_) => ([place, "not computed".into(), "none".into()], None),
                }
            }
        }
    }
}

fn check_readout(page: &mut Page<'_>, harbour: &Harbour, column: usize, row: usize) {
    let (expected, deviation) = harbour.expected(column, row);
    assert_eq!(["place", "coverage", "variance"].map(|id| page.text_of(id)), expected);
    let shown = page.text_of("deviation");
    match deviation {
        Some(deviation) => assert!((shown.parse::<f64>().unwrap() - deviation).abs() < 1e-4, "{shown}"),
        None => assert_eq!(shown, "none"),
    }
    if !harbour.chain.is_empty() {
        let pairs = harbour.pairs_at(column, row);
        assert_eq!(page.text_of("on-chain"), pairs.as_deref().unwrap_or("none"));
    }
}

/// What is read out, too.
fn check_selected(page: &mut Page<'_>, harbour: &Harbour, column: usize, row: usize) {
    check_readout(page, harbour, column, row);
    let ([place, coverage, variance], deviation) = harbour.expected(column, row);
    let mut expected = match deviation {
        Some(_) => format!(
            "{place}: {coverage}, variance {variance}, deviation {}",
            page.text_of("deviation")
        ),
        None => format!("{place}: {coverage}"),
    };
    if let Some(pairs) = harbour.pairs_at(column, row) {
        expected.push_str(&format!(", chain: {pairs}"));
    }
    assert_eq!(page.text_of("spoken"), expected);
    let moved = page.value("document.getElementById('selected').getAttribute('transform')");
    assert_eq!(moved, format!("translate({} {})", (column - 1) * 20, (row - 1) * 20));
}

/// The middle of a cell in the window; the map is first brought into sight.
fn middle(page: &mut Page<'_>, column: usize, row: usize) -> (f64, f64) {
    let cell = format!(
        "document.querySelectorAll('.cell')[{}]",
        (row - 1) * COLUMNS + column - 1
    );
    page.value(&format!("{cell}.scrollIntoView({{ block: 'center' }})"));
    let mut of = |part: &str| page.number(&format!("{cell}.getBoundingClientRect().{part}"));
    (of("left") + of("width") / 2.0, of("top") + of("height") / 2.0)
}

fn contents(page: &mut Page<'_>, harbour: &Harbour) {
    assert_eq!(page.value("document.title"), "Harbour: variance of the depth");
    let missing = harbour.lines.iter().filter(|line| line[3].is_empty()).count();
    let water = harbour.lines.len();
    assert!(missing > 0 && missing < water);
    let mut counted =
        |selector: &str| page.number(&format!("document.querySelectorAll(\"{selector}\").length")) as usize;
    assert_eq!(counted(".cell"), COLUMNS * ROWS);
    assert_eq!(
        counted(".cell[data-coverage='computed'][data-variance]"),
        water - missing
    );
    assert_eq!(
        counted(".cell[data-coverage='not computed'][fill='url(#not-computed)']"),
        missing
    );
    assert_eq!(counted(".cell[data-coverage='not computed'][data-variance]"), 0);
    assert_eq!(
        counted(".cell[data-coverage='land'][fill='url(#land)']"),
        COLUMNS * ROWS - water
    );
    assert_eq!(counted("#all tbody tr"), water);
    assert_eq!(
        page.text_of("summary"),
        format!("{} of {water} cells computed, {missing} not computed.", water - missing)
    );
    let legend = page.text_of("legend");
    assert!(legend.contains(&format!("not computed: {missing} cells")), "{legend}");
    assert!(
        legend.contains(&format!("land: {} cells", COLUMNS * ROWS - water)),
        "{legend}"
    );
    let diagnosis = page.value("document.getElementById('diagnosis').innerText.replace(/\\s+/g, ' ')");
    for words in [
        "status Complete",
        "pairs requested 24",
        &format!("cells not computed {missing}"),
    ] {
        assert!(diagnosis.contains(words), "{diagnosis}");
    }
    // Nothing is fetched, and nothing is cut off or thrown.
    assert_eq!(page.value("performance.getEntriesByType('resource').length"), "0");
    assert_eq!(page.value("document.querySelectorAll('[id]').length"), {
        page.value("new Set(Array.from(document.querySelectorAll('[id]'), (part) => part.id)).size")
    });
}

fn keys(page: &mut Page<'_>, harbour: &Harbour) {
    page.press("Tab", 9, false);
    assert_eq!(page.value("document.activeElement.id"), "map");
    let style = "getComputedStyle(document.getElementById('map'))";
    assert_eq!(
        page.value(&format!("{style}.outlineStyle + {style}.outlineWidth")),
        "solid3px"
    );
    assert_eq!(
        page.value("document.getElementById('spoken').getAttribute('aria-live')"),
        "polite"
    );
    check_selected(page, harbour, 1, 1);
    let presses: [(&str, u32, bool, usize, usize); 14] = [
        ("ArrowLeft", 37, false, 1, 1),
        ("ArrowUp", 38, false, 1, 1),
        ("ArrowRight", 39, false, 2, 1),
        ("ArrowDown", 40, false, 2, 2),
        ("End", 35, false, 24, 2),
        ("ArrowRight", 39, false, 24, 2),
        ("ArrowLeft", 37, false, 23, 2),
        ("ArrowLeft", 37, false, 22, 2),
        ("Home", 36, false, 1, 2),
        ("End", 35, true, 24, 16),
        ("ArrowDown", 40, false, 24, 16),
        ("ArrowUp", 38, false, 24, 15),
        ("Home", 36, true, 1, 1),
        ("ArrowDown", 40, false, 1, 2),
    ];
    for (key, number, control, column, row) in presses {
        page.press(key, number, control);
        check_selected(page, harbour, column, row);
    }
    // Along a row with land, computed cells and cells that are not.
    page.press("Home", 36, true);
    for row in 2..=9 {
        page.press("ArrowDown", 40, false);
        check_selected(page, harbour, 1, row);
    }
    for column in 2..=COLUMNS {
        page.press("ArrowRight", 39, false);
        check_selected(page, harbour, column, 9);
    }
    // The next cell that is not computed is one of row 10.
    page.press("Tab", 9, false);
    assert_eq!(page.value("document.activeElement.id"), "next");
    page.press("Enter", 13, false);
    check_selected(page, harbour, 1, 10);
    assert_eq!(page.text_of("coverage"), "not computed");
}

/// The chain is marked on its cells, and keys and pointer reach them through the marks.
fn chain(page: &mut Page<'_>, harbour: &Harbour) {
    let places = harbour.chain.iter().map(|line| {
        let number = |place: usize| line[place].parse::<usize>().unwrap();
        (number(1), number(2))
    });
    let places = places.collect::<Vec<_>>();
    assert_eq!(places.len(), 3);
    assert_eq!(page.value("document.querySelectorAll('#chain .mark').length"), "3");
    assert_eq!(page.value("document.querySelectorAll('#why li').length"), "4");
    page.value("document.getElementById('next-on-chain').focus()");
    for (column, row) in places.iter().chain(&places[..1]) {
        page.press("Enter", 13, false);
        check_selected(page, harbour, *column, *row);
        assert!(page.text_of("spoken").contains(", chain: pair"));
    }
    // From a cell that is not on it the first one is next.
    let place = middle(page, 2, 3);
    page.click(place);
    check_selected(page, harbour, 2, 3);
    assert_eq!(page.text_of("on-chain"), "none");
    page.value("document.getElementById('next-on-chain').click()");
    check_selected(page, harbour, places[0].0, places[0].1);
    for (column, row) in places {
        let place = middle(page, column, row);
        page.mouse("mouseMoved", place);
        check_readout(page, harbour, column, row);
        let under = format!(
            "document.elementFromPoint({}, {}).getAttribute('class')",
            place.0, place.1
        );
        assert_eq!(page.value(&under), "cell");
        // A mark has its cell's middle.
        let cell = format!(
            "document.querySelectorAll('.cell')[{}]",
            (row - 1) * COLUMNS + column - 1
        );
        let of = |part: &str| {
            format!(
                "(() => {{ const box = {part}.getBoundingClientRect(); \
                 return [(box.left + box.right) / 2, (box.top + box.bottom) / 2]; }})()"
            )
        };
        let apart = format!(
            "Math.min(...Array.from(document.querySelectorAll('#chain .mark'), (mark) => {{ \
             const [one, other] = [{}, {}]; return Math.hypot(one[0] - other[0], one[1] - other[1]); }}))",
            of("mark"),
            of(&cell)
        );
        assert!(page.number(&apart) < 0.5);
    }
}

fn pointer(page: &mut Page<'_>, harbour: &Harbour) {
    let start = middle(page, 1, 1);
    page.click(start);
    check_selected(page, harbour, 1, 1);
    let spoken = page.text_of("spoken");
    for (column, row) in [(12, 9), (2, 3), (24, 16), (20, 2), (1, 16)] {
        let place = middle(page, column, row);
        page.mouse("mouseMoved", place);
        check_readout(page, harbour, column, row);
        assert_eq!(page.text_of("spoken"), spoken);
        assert_eq!(
            page.value("document.getElementById('pointed').getAttribute('visibility')"),
            "visible"
        );
    }
    // Off the map the selected cell is shown again.
    page.mouse("mouseMoved", (2.0, 2.0));
    check_selected(page, harbour, 1, 1);
    let place = middle(page, 21, 2);
    page.click(place);
    check_selected(page, harbour, 21, 2);
    // Keys go on from there.
    page.press("ArrowUp", 38, false);
    check_selected(page, harbour, 21, 1);
}

/// The contrast of two colours of the page, as accessibility guidelines define it.
fn contrast(page: &mut Page<'_>, one: &str, other: &str) -> f64 {
    page.number(&format!(
        "(() => {{ const style = getComputedStyle(document.documentElement); \
         const light = (name) => {{ const digits = style.getPropertyValue(name).trim().slice(1); \
         const [r, g, b] = [0, 2, 4].map((at) => parseInt(digits.slice(at, at + 2), 16) / 255) \
         .map((part) => part <= 0.04045 ? part / 12.92 : ((part + 0.055) / 1.055) ** 2.4); \
         return 0.2126 * r + 0.7152 * g + 0.0722 * b + 0.05; }}; \
         const [a, b] = [light('{one}'), light('{other}')]; return Math.max(a, b) / Math.min(a, b); }})()"
    ))
}

fn light_and_dark(page: &mut Page<'_>) {
    let ground = "getComputedStyle(document.body).backgroundColor";
    page.scheme("light");
    let light = page.value(ground);
    page.scheme("dark");
    assert_ne!(page.value(ground), light);
    for scheme in ["light", "dark"] {
        page.scheme(scheme);
        for (one, other, least) in [
            ("--ink", "--ground", 7.0),
            ("--ink", "--panel", 7.0),
            ("--soft", "--ground", 4.5),
            ("--soft", "--panel", 4.5),
            ("--focus", "--ground", 3.0),
            ("--hatch-mark", "--hatch-ground", 4.5),
        ] {
            let found = contrast(page, one, other);
            assert!(found >= least, "{scheme}: {one} on {other} is {found}");
        }
    }
}

/// Cells are told apart by pattern alone: a computed cell is of one lightness, hatching and land are not.
fn without_colour(browser: &mut Browser, harbour: &Harbour) {
    let mut parts = Vec::new();
    {
        let mut page = browser.page();
        page.screen(1280, 900, false);
        for scheme in ["light", "dark"] {
            page.open(&harbour.html);
            page.scheme(scheme);
            for (column, row, flat, largest) in [(14, 9, true, 0.0), (2, 3, false, 100.0), (24, 16, false, 25.0)] {
                let (x, y) = middle(&mut page, column, row);
                let top = y + page.number("scrollY");
                parts.push((page.painted(x - 12.0, top - 12.0, 24.0, 24.0), flat, largest, scheme));
            }
        }
        page.scheme("light");
        page.open(&harbour.svg);
        assert_eq!(page.value("document.documentElement.nodeName"), "svg");
        assert_eq!(page.value("document.getElementsByTagName('parsererror').length"), "0");
        for (column, row, flat, largest) in [(14, 9, true, 0.0), (2, 3, false, 100.0), (24, 16, false, 25.0)] {
            let cell = format!(
                "document.querySelectorAll('.cell')[{}]",
                (row - 1) * COLUMNS + column - 1
            );
            let mut of = |part: &str| page.number(&format!("{cell}.getBoundingClientRect().{part}"));
            let (left, top) = (of("left"), of("top"));
            parts.push((page.painted(left + 3.0, top + 3.0, 24.0, 24.0), flat, largest, "svg"));
        }
    }
    let mut blank = browser.page();
    for (painted, flat, least_difference, scheme) in parts {
        let (least, largest) = blank.lightness(&painted);
        if flat {
            assert!(largest - least < 1.0, "{scheme}: {least} to {largest}");
        } else {
            assert!(largest - least > least_difference, "{scheme}: {least} to {largest}");
        }
    }
}

/// The marks are of black and white, light and dark: on every cell of the chain both are seen.
fn marks_without_colour(browser: &mut Browser, harbour: &Harbour) {
    let mut parts = Vec::new();
    {
        let mut page = browser.page();
        page.screen(1280, 900, false);
        for (scheme, file) in [
            ("light", &harbour.html),
            ("dark", &harbour.html),
            ("light", &harbour.svg),
        ] {
            page.open(file);
            page.scheme(scheme);
            for [_, column, row, _] in &harbour.chain {
                let [column, row] = [column, row].map(|number| number.parse().unwrap());
                let (x, y) = middle(&mut page, column, row);
                let top = y + page.number("scrollY");
                parts.push((page.painted(x - 9.0, top - 9.0, 18.0, 18.0), scheme));
            }
        }
    }
    let mut blank = browser.page();
    for (painted, scheme) in parts {
        let (least, largest) = blank.lightness(&painted);
        assert!(largest - least > 200.0, "{scheme}: {least} to {largest}");
    }
}

/// On a small screen, upright or not, nothing is wider than it, and the readout is in sight while the map is touched.
fn small_screen(page: &mut Page<'_>, harbour: &Harbour) {
    for (width, height) in [(360, 640), (640, 360)] {
        page.screen(width, height, true);
        page.open(&harbour.html);
        assert!(page.number("document.documentElement.scrollWidth") <= width as f64);
        for (column, row) in [(12, 9), (2, 3)] {
            let place = middle(page, column, row);
            page.tap(place);
            // A tap becomes a click a moment later.
            let spoken = format!("column {column}, row {row}");
            let until = Instant::now() + Duration::from_secs(10);
            while !page.text_of("spoken").starts_with(&spoken) && Instant::now() < until {
                thread::sleep(Duration::from_millis(20));
            }
            check_selected(page, harbour, column, row);
            check_in_sight(page, height);
        }
        // The readout does not hide a cell that keys lead to.
        for row in 4..=ROWS {
            page.press("ArrowDown", 40, false);
            check_selected(page, harbour, 2, row);
            check_in_sight(page, height);
        }
    }
}

/// The readout is inside the window and below the selected cell.
fn check_in_sight(page: &mut Page<'_>, height: usize) {
    let mut of = |id: &str, part: &str| {
        page.number(&format!(
            "document.getElementById('{id}').getBoundingClientRect().{part}"
        ))
    };
    assert!(of("selected", "bottom") <= of("readout", "top"));
    assert!(of("readout", "bottom") <= height as f64 + 0.5);
}

#[test]
fn the_harbour_in_a_browser() {
    let Some(program) = protocol::installed() else {
        // Not by a macro, whose words the tests' runner keeps back.
        let _ = writeln!(
            std::io::stderr(),
            "skipped: the page in a browser, as none of {} is installed",
            protocol::PROGRAMS.join(", ")
        );
        return;
    };
    let folder = Path::new(env!("CARGO_TARGET_TMPDIR")).join("browser");
    let _ = std::fs::remove_dir_all(&folder);
    std::fs::create_dir_all(&folder).unwrap();
    let harbour = Harbour::new(&folder, None);
    let with_chain = Harbour::new(&folder, Some("29,30"));
    let mut browser = Browser::start(&program, &folder.join("profile"));
    {
        let mut page = browser.page();
        page.screen(1280, 900, false);
        page.open(&harbour.html);
        contents(&mut page, &harbour);
        keys(&mut page, &harbour);
        pointer(&mut page, &harbour);
        light_and_dark(&mut page);
        small_screen(&mut page, &harbour);
        page.screen(1280, 900, false);
        page.open(&with_chain.html);
        contents(&mut page, &with_chain);
        keys(&mut page, &with_chain);
        chain(&mut page, &with_chain);
        small_screen(&mut page, &with_chain);
    }
    without_colour(&mut browser, &harbour);
    marks_without_colour(&mut browser, &with_chain);
}
