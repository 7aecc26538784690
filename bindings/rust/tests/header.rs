//! The declarations of `sys` are those of include/redstartgilt.h: the same names, types, orders and numbers. What the header
//! computes itself, lengths and words, is what this crate gives.

use redstartgilt::{lent, Error, MAX_DIMENSION, MAX_ENTRIES, STACK_BYTES};
use std::collections::BTreeSet;
use std::io::Write;
use std::path::{Path, PathBuf};
use std::process::{Command, Stdio};
use std::thread;

fn text(name: &str) -> String {
    let file = Path::new(env!("CARGO_MANIFEST_DIR")).join(name);
    std::fs::read_to_string(&file).unwrap_or_else(|error| panic!("{}: {error}", file.display()))
}

fn one_space(text: &str) -> String {
    text.split_whitespace().collect::<Vec<_>>().join(" ")
}

/// The text between two words, and what follows it.
fn between<'a>(text: &'a str, from: &str, to: &str) -> Option<(&'a str, &'a str)> {
    let (_, rest) = text.split_once(from)?;
    rest.split_once(to)
}

/// The header without comments, preprocessor lines and inline functions.
fn header() -> String {
    let whole = text("../../include/redstartgilt.h");
    let mut bare = String::new();
    let mut rest = whole.as_str();
    while let Some((before, comment)) = rest.split_once("/*") {
        bare.push_str(before);
        rest = comment.split_once("*/").expect("a comment ends").1;
    }
    bare.push_str(rest);
    let mut depth = 0;
    let lines = bare.lines().filter(|line| {
        let inline = depth > 0 || line.starts_with("static inline ");
        if inline {
            depth += line.matches('{').count();
            depth -= line.matches('}').count();
        }
        !inline && !line.starts_with('#') && !line.contains("extern \"C\"")
    });
    lines.collect::<Vec<_>>().join("\n")
}

/// `sys` and its modules without comments.
fn sys() -> String {
    let folder = Path::new(env!("CARGO_MANIFEST_DIR")).join("src/sys");
    let modules = std::fs::read_dir(&folder).unwrap_or_else(|error| panic!("{}: {error}", folder.display()));
    let files = modules
        .map(|module| module.expect("listed").path())
        .collect::<BTreeSet<_>>();
    let whole = files
        .iter()
        .map(|file| std::fs::read_to_string(file).expect("a module's text"));
    let whole = text("src/sys.rs") + &whole.collect::<String>();
    let lines = whole.lines().filter(|line| !line.trim_start().starts_with("//"));
    lines.collect::<Vec<_>>().join("\n")
}

/// A C declaration such as `const uint32_t *rows` as Rust writes it.
fn field(declaration: &str) -> String {
    let declaration = one_space(declaration);
    let (kind, name) = declaration.rsplit_once(' ').expect("a type and a name");
    let pointer = name.starts_with('*');
    let (constant, kind) = match kind.strip_prefix("const ") {
        Some(kind) => (true, kind),
        None => (false, kind),
    };
    let kind = kind_of(kind);
    let name = name.trim_start_matches('*');
    match (pointer, constant) {
        (false, _) => format!("{name}: {kind}"),
        (true, true) => format!("{name}: *const {kind}"),
        (true, false) => format!("{name}: *mut {kind}"),
    }
}

fn kind_of(kind: &str) -> &str {
    match kind {
        "uint8_t" => "u8",
        "uint32_t" => "u32",
        "int64_t" => "i64",
        "size_t" => "usize",
        "double" => "f64",
        other => other,
    }
}

fn all_header_functions() -> BTreeSet<String> {
    let header = header();
    let statements = header.split(';').map(str::trim_start);
    let declarations = statements.filter(|statement| !statement.starts_with("typedef"));
    let declarations = declarations.filter_map(|statement| statement.split_once('('));
    declarations
        .map(|(left, right)| {
            let left = one_space(left);
            let (kind, name) = left.rsplit_once(' ').expect("a type and a name");
            let parameters = right.split_once(')').expect("a list ends").0;
            let parameters = parameters.split(',').map(field).collect::<Vec<_>>().join(", ");
            format!("{name}({parameters}) -> {}", kind_of(kind))
        })
        .collect()
}

fn all_sys_functions() -> BTreeSet<String> {
    let sys = sys();
    let mut rest = sys.as_str();
    let mut functions = BTreeSet::new();
    while let Some((function, left)) = between(rest, "pub fn ", ";") {
        let function = one_space(function).replace("( ", "(").replace(", )", ")");
        functions.insert(function);
        rest = left;
    }
    functions
}

/// The calls with an output that take a limit, which are compared and counted by themselves.
const LIMITED: [&str; 3] = [
    "redstartgilt_selected_inverse_diag_with_limit",
    "redstartgilt_selected_inverse_transformed_covariances_with_limit",
    "redstartgilt_selected_inverse_transformed_diag_with_limit",
];

fn is_limited(function: &str) -> bool {
    function
        .split_once('(')
        .is_some_and(|(name, _)| LIMITED.contains(&name))
}

fn header_functions() -> BTreeSet<String> {
    let functions = all_header_functions().into_iter();
    functions.filter(|function| !is_limited(function)).collect()
}

fn sys_functions() -> BTreeSet<String> {
    let functions = all_sys_functions().into_iter();
    functions.filter(|function| !is_limited(function)).collect()
}

fn header_structs() -> BTreeSet<String> {
    let header = header();
    let mut rest = header.as_str();
    let mut structs = BTreeSet::new();
    while let Some((fields, left)) = between(rest, "typedef struct {", "}") {
        let name = left.split_once(';').expect("a name").0.trim();
        let fields = fields.split(';').filter(|field| !field.trim().is_empty());
        structs.insert(format!("{name} {}", fields.map(field).collect::<Vec<_>>().join(", ")));
        rest = left;
    }
    structs
}

fn sys_structs() -> BTreeSet<String> {
    let sys = sys();
    let mut rest = sys.as_str();
    let mut structs = BTreeSet::new();
    while let Some((body, left)) = between(rest, "#[repr(C)]", "}") {
        let (name, fields) = between(body, "pub struct ", "{")
            .map(|(name, fields)| (name.trim(), fields))
            .unwrap();
        let fields = one_space(fields).replace("pub ", "");
        structs.insert(format!("{name} {}", fields.trim_end_matches(',')));
        rest = left;
    }
    structs
}

/// Refusals and statuses with their numbers.
fn header_numbers() -> BTreeSet<String> {
    let header = header();
    let words = header.split(['{', '}', ',', '\n']).map(one_space);
    words
        .filter(|word| word.starts_with("REDSTARTGILT_") && word.contains(" = "))
        .collect()
}

fn sys_numbers() -> BTreeSet<String> {
    let sys = sys();
    let constants = sys.lines().filter_map(|line| line.strip_prefix("pub const "));
    constants
        .map(|line| line.replace(": u32 =", " =").replace(';', ""))
        .collect()
}

#[test]
fn functions() {
    assert_eq!(sys_functions(), header_functions());
    assert_eq!(sys_functions().len(), 31);
}

#[test]
fn functions_with_a_limit() {
    let limited = |functions: BTreeSet<String>| functions.into_iter().filter(|function| is_limited(function)).collect();
    let (sys, header): (Vec<_>, Vec<_>) = (limited(all_sys_functions()), limited(all_header_functions()));
    assert_eq!((&sys, sys.len()), (&header, LIMITED.len()));
}

#[test]
fn structs() {
    assert_eq!(sys_structs(), header_structs());
    assert_eq!(sys_structs().len(), 10);
}

#[test]
fn numbers() {
    assert_eq!(sys_numbers(), header_numbers());
    assert_eq!(sys_numbers().len(), 27);
}

/// A number as the header writes it, with a comma before every three digits.
fn grouped(number: usize) -> String {
    match number {
        0..=999 => number.to_string(),
        _ => format!("{},{:03}", grouped(number / 1_000), number % 1_000),
    }
}

/// The stack, the largest dimension and the lengths of lists that it needs are those that the crate has.
#[test]
fn sizes() {
    let header = one_space(&text("../../include/redstartgilt.h").replace("\n *", "\n"));
    let n = redstartgilt::MAX_DIMENSION;
    for said in [
        format!("at most {} KiB of stack", redstartgilt::STACK_BYTES / 1_024),
        format!(
            "At n = {}, the largest dimension, T is {};",
            grouped(n),
            grouped(lent::pair_total(n))
        ),
        format!("of selected entries is {} words", grouped(lent::scratch_words(n))),
        format!("of a pattern list {} ", grouped(lent::mark_words(n))),
        format!("of a chain {} ", grouped(lent::chain_words(n))),
    ] {
        assert!(header.contains(&said), "{said}");
    }
}

/// The program that prints what the header's inline functions give.
fn inline_program(name: &str) -> PathBuf {
    let package = Path::new(env!("CARGO_MANIFEST_DIR"));
    let program = Path::new(env!("CARGO_TARGET_TMPDIR")).join(name);
    let made = Command::new("gcc")
        .args(["-std=c99", "-pedantic", "-Wall", "-Wextra", "-Werror", "-I"])
        .arg(package.join("../../include"))
        .arg(package.join("../c/inline.c"))
        .arg("-o")
        .arg(&program)
        .status();
    assert!(made.expect("gcc runs").success());
    program
}

/// Every small number, and numbers beside powers of two up to `usize::MAX`, each with others.
fn pairs_of_numbers() -> Vec<(usize, usize)> {
    let beside = (0..usize::BITS).flat_map(|exponent| {
        let power = 1_usize << exponent;
        [power - 1, power, power + 1, power.wrapping_neg(), power / 2 * 3]
    });
    let beside = beside.collect::<BTreeSet<_>>();
    let small = (0..=MAX_DIMENSION + 2).map(|n| (n, n * 7 % 5_000));
    let large = beside
        .iter()
        .flat_map(|first| beside.iter().map(move |second| (*first, *second)));
    small.chain(large).collect()
}

#[test]
fn lengths() {
    let mut program = Command::new(inline_program("inline_lengths"))
        .stdin(Stdio::piped())
        .stdout(Stdio::piped())
        .spawn()
        .expect("it was made");
    let pairs = pairs_of_numbers();
    let asked = pairs
        .iter()
        .map(|(first, second)| format!("{first} {second}\n"))
        .collect::<String>();
    let mut stdin = program.stdin.take().expect("piped");
    let writer = thread::spawn(move || stdin.write_all(asked.as_bytes()));
    let said = String::from_utf8(program.wait_with_output().expect("it ends").stdout).expect("digits");
    writer.join().expect("no panic").expect("it reads all");

    assert_eq!(said.lines().count(), pairs.len());
    for ((first, second), said) in pairs.into_iter().zip(said.lines()) {
        let here = [
            lent::pair_total(first),
            lent::result_places(first, second),
            lent::mark_words(first),
            lent::scratch_words(first),
            lent::chain_words(first),
            lent::chain_places(first),
            lent::default_limit(first),
            lent::request_file_bytes(first),
            lent::track_runs(first, second),
        ];
        assert_eq!(
            said,
            here.map(|length| length.to_string()).join(" "),
            "{first} {second}"
        );
    }
}

#[test]
fn version_bounds_places_and_words() {
    let output = Command::new(inline_program("inline_words")).arg("words").output();
    let said = String::from_utf8(output.expect("it was made").stdout).expect("text");
    let version = env!("CARGO_PKG_VERSION");
    let mut expected = vec![format!(
        "{version} {version} {MAX_DIMENSION} {MAX_ENTRIES} {STACK_BYTES}"
    )];
    let text = b"xx\n".repeat(1 << 21);
    let lengths = [
        0,
        1,
        12_288,
        12_290,
        12_291,
        300_000,
        3_145_727,
        3_145_728,
        3_145_731,
        1 << 22,
    ];
    expected.extend(lengths.map(|length| format!("{length} {}", lent::request_places(&text[..length]))));
    expected.extend((0..=40).map(|number| match Error::from_number(number) {
        Some(error) => error.reason().to_string(),
        None if number == 0 => "accepted".to_string(),
        None => "no refusal of this library has this number".to_string(),
    }));
    assert_eq!(said.lines().count(), expected.len());
    for (said, expected) in said.lines().zip(&expected) {
        assert_eq!(said, expected);
    }
    assert!(Error::ALL.iter().all(|error| error.number() <= 40));
}
