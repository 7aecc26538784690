//! Files that would be overwritten, and standard input and output in their place.

use crate::{message, Folder, F2, F3};
use std::fs::{self, File};
use std::os::unix::fs::symlink;
use std::process::{Command, Output};

fn told(run: Output, status: i32) -> String {
    assert_eq!(run.status.code(), Some(status));
    message(&String::from_utf8(run.stderr).unwrap())
}

#[test]
fn files_that_are_kept_apart() {
    let folder = Folder::new("overwritten");
    folder.write("f3.mtx", F3);
    folder.write("order.txt", "1\n2\n3\n");
    fs::create_dir(folder.0.join("sub")).unwrap();
    symlink("f3.mtx", folder.0.join("soft.mtx")).unwrap();
    symlink("sub", folder.0.join("soft")).unwrap();
    symlink("new.svg", folder.0.join("later.svg")).unwrap();
    fs::hard_link(folder.0.join("f3.mtx"), folder.0.join("hard.mtx")).unwrap();
    let absolute = folder.0.join("f3.mtx");
    let absolute = absolute.to_str().unwrap();
    let absolutely = format!("--matrix {absolute} would overwrite FACTOR f3.mtx: they are one file");
    let grid = ["f3.mtx", "--grid=3x1", "--svg=map.svg"];
    for (words, refusal) in [
        (
            &["--matrix=f3.mtx"][..],
            "--matrix would overwrite FACTOR: both are f3.mtx",
        ),
        (
            &["--matrix=./f3.mtx"],
            "--matrix ./f3.mtx would overwrite FACTOR f3.mtx: they are one file",
        ),
        (
            &["--matrix=sub/../f3.mtx"],
            "--matrix sub/../f3.mtx would overwrite FACTOR f3.mtx: they are one file",
        ),
        (&["--matrix", absolute], &absolutely),
        (
            &["--matrix=soft.mtx"],
            "--matrix soft.mtx would overwrite FACTOR f3.mtx: they are one file, by a symbolic link",
        ),
        (
            &["--matrix=hard.mtx"],
            "--matrix hard.mtx would overwrite FACTOR f3.mtx: they are one file, by a hard link",
        ),
        (
            &["--matrix=order.txt", "--permutation=order.txt"],
            "--matrix would overwrite --permutation: both are order.txt",
        ),
        (
            &["--mask=order.txt", "--html=order.txt"],
            "--html would overwrite --mask: both are order.txt",
        ),
        (
            &["--place-to-cell=order.txt", "--write-requests=order.txt"],
            "--write-requests would overwrite --place-to-cell: both are order.txt",
        ),
        // Two that are to be made.
        (
            &["--matrix=./map.svg"],
            "--matrix ./map.svg would overwrite --svg map.svg: they are one file",
        ),
        (
            &["--matrix=sub/map.html", "--html=soft/map.html"],
            "--html soft/map.html would overwrite --matrix sub/map.html: they are one file",
        ),
        (
            &["--html=new.svg", "--matrix=later.svg"],
            "--matrix later.svg would overwrite --html new.svg: they are one file, by a symbolic link",
        ),
    ] {
        let words = [&grid[..], words].concat();
        assert_eq!(folder.fails(&words, 2), format!("{refusal}; try --help"), "{words:?}");
    }
    let list = fs::read_dir(&folder.0).unwrap().count();
    assert_eq!(list, 7, "nothing was made");
    assert_eq!(folder.read("f3.mtx"), F3);
    // Standard output by another name.
    assert_eq!(
        folder.fails(&[&grid[..], &["--matrix=/dev/stdout"]].concat(), 2),
        "what is printed on standard output would overwrite --matrix /dev/stdout: they are one file, by a symbolic link; \
         try --help"
    );
    // A file may be read twice, and a device is not overwritten.
    folder.write("mask.txt", "111\n");
    folder.prints(&["f3.mtx", "--mask=mask.txt", "--svg=/dev/null", "--matrix=/dev/null"]);
}

/// What is printed goes to a file too, where standard output is one.
#[test]
fn what_is_printed_overwrites_nothing() {
    let folder = Folder::new("printed");
    folder.write("f2.mtx", F2);
    folder.write("mask.txt", "11\n");
    let run = |words: &[&str], output: &str| {
        let output = File::options().append(true).create(true).open(folder.0.join(output));
        let run = Command::new(env!("CARGO_BIN_EXE_redstartgilt"))
            .args(words)
            .current_dir(&folder.0)
            .stdout(output.unwrap())
            .output()
            .unwrap();
        told(run, 2)
    };
    let masked = ["f2.mtx", "--mask=mask.txt", "--csv"];
    let refusal = "what is printed on standard output would overwrite --mask mask.txt: they are one file";
    assert_eq!(run(&masked, "mask.txt"), format!("{refusal}; try --help"));
    assert_eq!(folder.read("mask.txt"), "11\n");
    let refusal = run(&["f2.mtx", "--matrix=z.mtx"], "z.mtx");
    assert!(
        refusal.contains("would overwrite --matrix z.mtx: they are one file"),
        "{refusal}"
    );
    assert_eq!(folder.read("z.mtx"), "");
    // Standard input that is a file.
    let run = Command::new(env!("CARGO_BIN_EXE_redstartgilt"))
        .args(["f2.mtx", "--mask=-", "--csv", "--matrix=mask.txt"])
        .current_dir(&folder.0)
        .stdin(File::open(folder.0.join("mask.txt")).unwrap())
        .output()
        .unwrap();
    assert_eq!(
        told(run, 2),
        "--matrix mask.txt would overwrite --mask standard input: they are one file; try --help"
    );
    assert_eq!(folder.read("mask.txt"), "11\n");
}

#[test]
fn standard_input() {
    let folder = Folder::new("standard-input");
    folder.write("f2.mtx", F2);
    folder.write(
        "Q.mtx",
        "%%MatrixMarket matrix coordinate real symmetric\n2 2 3\n1 1 1\n2 1 2\n2 2 5\n",
    );
    folder.write("order.txt", "2\n1\n");
    folder.write("mask.txt", "101\n");
    for [name, file] in [
        ["--precision", "Q.mtx"],
        ["--cell-to-place", "order.txt"],
        ["--place-to-cell", "order.txt"],
        ["--mask", "mask.txt"],
    ] {
        let run = |word: &str| folder.run_with(&["f2.mtx", "--csv", name, word], &folder.read(file));
        assert_eq!(run("-").status.code(), Some(0));
        assert_eq!(run("-"), run(file), "{name}");
    }
    let told = |words: &[&str], input: &str, status: i32| {
        let run = folder.run_with(words, input);
        assert!(run.stdout.is_empty());
        told(run, status)
    };
    assert_eq!(
        told(&["f2.mtx", "--precision=-"], "", 1),
        "standard input: the file is empty"
    );
    assert_eq!(
        told(&["f2.mtx", "--place-to-cell=-"], "1\n0\n", 1),
        "standard input:2: 0 is not a whole number from 1; --place-to-cell has the cell at each place of the factor"
    );
    assert_eq!(
        told(&["f2.mtx", "--precision=-", "--mask=-", "--csv"], F2, 2),
        "--precision and --mask: standard input is read once; try --help"
    );
    assert_eq!(
        told(&["f2.mtx", "--mask=", "--csv"], "", 2),
        "--mask needs the name of a file; try --help"
    );
    // Files of these names.
    folder.write("-", "110\n");
    folder.write("standard input", "110\n");
    for name in ["./-", "standard input"] {
        let run = folder.run_with(&["f2.mtx", "--csv", "--mask", name], "101\n");
        let expected =
            "cell,column,row,variance,covered,deviation\n1,1,1,5.0,yes,2.23606797749979\n2,2,1,1.0,yes,1.0\n";
        assert_eq!(String::from_utf8(run.stdout).unwrap(), expected);
    }
}

#[test]
fn standard_output() {
    let folder = Folder::new("standard-output");
    folder.write("f3.mtx", F3);
    for words in [
        &["f3.mtx", "--entries", "--matrix"][..],
        &["f3.mtx", "--whole", "--matrix"],
    ] {
        folder.prints(&[words, &["file"]].concat());
        let printed = folder.prints(&[words, &["-"]].concat());
        assert_eq!(printed, folder.read("file"), "{words:?}");
    }
    assert!(!folder.0.join("-").exists() && !folder.0.join("standard output").exists());
    // Beside another file.
    folder.prints(&["f3.mtx", "--grid=3x1", "--svg=map.svg", "--matrix=-"]);
    assert!(folder.read("map.svg").contains("<svg "));
    folder.prints(&["f3.mtx", "--matrix=standard output"]);
    assert!(folder.read("standard output").starts_with("%%MatrixMarket"));
}

/// An output that is full is a failure; one that nobody reads any more is none, as behind `head`.
#[test]
fn outputs_that_are_full_or_closed() {
    let folder = Folder::new("closed");
    // More than a pipe holds.
    let diagonal = (1..=4096)
        .map(|cell| format!("{cell} {cell} 0.3\n"))
        .collect::<String>();
    folder.write(
        "f.mtx",
        format!("%%MatrixMarket matrix coordinate real general\n4096 4096 4096\n{diagonal}"),
    );
    for words in [
        &["f.mtx"][..],
        &["f.mtx", "--entries", "--csv"],
        &["f.mtx", "--matrix=-"],
        &["--help"],
        &["--version"],
        &["--demo"],
    ] {
        // The reader is gone before the command is there, however little it writes.
        let (reader, writer) = std::io::pipe().unwrap();
        drop(reader);
        let run = Command::new(env!("CARGO_BIN_EXE_redstartgilt"))
            .args(words)
            .current_dir(&folder.0)
            .stdout(writer)
            .output()
            .unwrap();
        assert_eq!((run.status.code(), &run.stderr[..]), (Some(0), &b""[..]), "{words:?}");
        if let Ok(full) = File::options().write(true).open("/dev/full") {
            let run = Command::new(env!("CARGO_BIN_EXE_redstartgilt"))
                .args(words)
                .current_dir(&folder.0)
                .stdout(full)
                .output()
                .unwrap();
            assert_eq!(
                told(run, 1),
                "cannot write the output: No space left on device (os error 28)"
            );
        }
    }
}
