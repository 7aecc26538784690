//! When the build script has the library proved, and which archive it takes: run on a small repository, with a stand-in
//! for `rt` that counts its runs.

use std::collections::BTreeSet;
use std::env;
use std::fs;
use std::path::{Path, PathBuf};
use std::process::{Command, Output};
use std::sync::OnceLock;

/// An archive is here the contents of its sources. A file `meanwhile` is what somebody writes to one of them while rt runs.
const RT: &str = r#"#!/bin/sh
[ "$*" = lib ] && [ "${PWD##*/}" = redstartgilt ] || exit 2
cd ../..
echo run >> runs
[ ! -f meanwhile ] || mv meanwhile crates/lists/src/lib.rt
echo "rt: chose --jobs 1 for lists"
echo "fn lists::first: proved"
echo "rt: chose --jobs 2 for redstartgilt"
if grep -q wrong crates/redstartgilt/src/lib.rt; then
    echo "a goal that is not met"
    echo "logic=not-proved"
    echo "rt: nothing was built" >&2
    exit 1
fi
echo "logic=proved functions=1"
mkdir -p crates/redstartgilt/out
cat crates/lists/src/* crates/redstartgilt/src/* > crates/redstartgilt/out/libredstartgilt.a
"#;

/// The build script as a program.
fn script() -> &'static Path {
    static SCRIPT: OnceLock<PathBuf> = OnceLock::new();
    SCRIPT.get_or_init(|| {
        let program = Path::new(env!("CARGO_TARGET_TMPDIR")).join("build_script");
        let rustc = env::var_os("RUSTC").unwrap_or("rustc".into());
        let made = Command::new(rustc)
            .args(["--edition", "2021", "-D", "warnings", "-o"])
            .arg(&program)
            .arg(Path::new(env!("CARGO_MANIFEST_DIR")).join("build.rs"))
            .status()
            .expect("rustc runs");
        assert!(made.success());
        program
    })
}

struct Repository {
    top: PathBuf,
}

/// Its sources go with it: `rt` at the top of the repository takes files of Rattle below it for its own.
impl Drop for Repository {
    fn drop(&mut self) {
        let _ = fs::remove_dir_all(&self.top);
    }
}

impl Repository {
    /// The library's crate needs `lists`; `other` is needed by none.
    fn new(name: &str) -> Self {
        let top = Path::new(env!("CARGO_TARGET_TMPDIR")).join(name);
        let _ = fs::remove_dir_all(&top);
        fs::create_dir_all(&top).unwrap();
        let repository = Repository {
            top: top.canonicalize().unwrap(),
        };
        repository.write(
            "crates.txt",
            "lists: # no crate\nother:\nredstartgilt staticlib: lists std\n",
        );
        repository.write("crates/lists/src/lib.rt", "lists");
        repository.write("crates/lists/specs/parts/Lists.antt", "laws");
        repository.write("crates/lists/must-fail/wrong.edit", "edit");
        repository.write("crates/other/src/lib.rt", "other");
        repository.write("crates/redstartgilt/src/lib.rt", "library");
        repository.write("kit/KIT-ID", "kit 1");
        repository.write("kit/bin/rt", RT);
        repository.write("bindings/rust/Cargo.toml", "");
        let rt = repository.top.join("kit/bin/rt");
        assert!(Command::new("chmod").arg("+x").arg(&rt).status().unwrap().success());
        fs::create_dir_all(repository.top.join("path")).unwrap();
        std::os::unix::fs::symlink("../kit/bin/rt", repository.top.join("path/rt")).unwrap();
        repository
    }

    fn write(&self, name: &str, text: &str) {
        let file = self.top.join(name);
        fs::create_dir_all(file.parent().unwrap()).unwrap();
        fs::write(file, text).unwrap();
    }

    fn read(&self, name: &str) -> String {
        fs::read_to_string(self.top.join(name)).unwrap_or_default()
    }

    /// The script as cargo runs it, without a terminal, with these variables and no others but the path and cargo's own.
    fn run(&self, out: &str, variables: &[(&str, &str)]) -> Output {
        let out = self.top.join(out);
        fs::create_dir_all(&out).unwrap();
        let mut path = vec![self.top.join("path")];
        path.extend(env::split_paths(&env::var_os("PATH").unwrap()));
        Command::new("setsid")
            .arg("--wait")
            .arg(script())
            .current_dir(self.top.join("bindings/rust"))
            .env_clear()
            .env("PATH", env::join_paths(path).unwrap())
            .env("CARGO_MANIFEST_DIR", self.top.join("bindings/rust"))
            .env("OUT_DIR", out)
            .envs(variables.iter().copied())
            .output()
            .unwrap()
    }

    /// Builds, and how often `rt` has been run by then.
    fn runs_after_build(&self, out: &str) -> usize {
        let output = self.run(out, &[]);
        assert!(output.status.success(), "{output:?}");
        assert_eq!(
            self.read(&format!("{out}/libredstartgilt.a")),
            self.read("crates/redstartgilt/out/libredstartgilt.a")
        );
        self.runs()
    }

    fn runs(&self) -> usize {
        self.read("runs").lines().count()
    }
}

fn lines(bytes: &[u8]) -> Vec<String> {
    String::from_utf8_lossy(bytes).lines().map(str::to_string).collect()
}

#[test]
fn proved_again_where_something_changed() {
    let repository = Repository::new("changes");
    assert_eq!(repository.runs_after_build("debug"), 1);
    assert_eq!(repository.runs_after_build("debug"), 1);
    assert_eq!(repository.runs_after_build("release"), 1, "profiles share the archive");

    // What the archive is not made from.
    repository.write("crates/other/src/lib.rt", "another");
    repository.write("crates/lists/must-fail/wrong.edit", "another");
    repository.write("crates/lists/src/lib.rt", "lists");
    repository.write(
        "crates.txt",
        "# a comment\nlists:\nother: lists\nredstartgilt staticlib : lists std\n",
    );
    assert_eq!(repository.runs_after_build("debug"), 1);

    let mut runs = 1;
    let mut changed = |what: &str| {
        runs += 1;
        assert_eq!(repository.runs_after_build("debug"), runs, "{what}");
        assert_eq!(repository.runs_after_build("debug"), runs, "after {what}");
    };
    repository.write("crates/redstartgilt/src/lib.rt", "another library");
    changed("code");
    repository.write("crates/lists/specs/parts/Lists.antt", "other laws");
    changed("a law of a crate that is needed");
    repository.write("crates/lists/proofs/Lists.antt", "");
    changed("a new folder");
    let folder = repository.top.join("crates/lists/specs/parts");
    fs::rename(folder.join("Lists.antt"), folder.join("List.antt")).unwrap();
    changed("a file's name");
    repository.write("crates.txt", "lists:\nredstartgilt staticlib: lists\n");
    changed("what a crate depends on");
    repository.write("kit/KIT-ID", "kit 2");
    changed("the toolchain");
    repository.write("crates/redstartgilt/out/libredstartgilt.a", "by hand");
    changed("another archive");
    fs::remove_file(repository.top.join("crates/redstartgilt/out/libredstartgilt.a")).unwrap();
    changed("no archive");
    fs::remove_dir_all(repository.top.join("crates/redstartgilt/out")).unwrap();
    changed("no folder of the archive");
}

/// The archive is not of the sources that were there before, nor of those that are there again.
#[test]
fn sources_changed_meanwhile() {
    let repository = Repository::new("meanwhile");
    repository.write("meanwhile", "other lists");
    assert_eq!(repository.runs_after_build("debug"), 1);
    repository.write("crates/lists/src/lib.rt", "lists");
    assert_eq!(repository.runs_after_build("debug"), 2);
    assert_eq!(repository.read("debug/libredstartgilt.a"), "listslibrary");
    assert_eq!(repository.runs_after_build("debug"), 2);
}

/// Without its identity the toolchain may be another one each time.
#[test]
fn no_identity() {
    let repository = Repository::new("identity");
    fs::remove_file(repository.top.join("kit/KIT-ID")).unwrap();
    assert_eq!(repository.runs_after_build("debug"), 1);
    assert_eq!(repository.runs_after_build("debug"), 2);
}

#[test]
fn not_proved() {
    let repository = Repository::new("unproved");
    assert_eq!(repository.runs_after_build("debug"), 1);
    repository.write("crates/redstartgilt/src/lib.rt", "wrong");
    for runs in [2, 3] {
        let output = repository.run("debug", &[]);
        assert_eq!(output.status.code(), Some(1));
        let said = String::from_utf8_lossy(&output.stderr);
        assert!(
            said.contains("a goal that is not met\nlogic=not-proved\nrt: nothing was built\n"),
            "{said}"
        );
        assert!(!said.contains("fn lists::first"), "{said}");
        assert!(said.contains("`rt lib` in"), "{said}");
        assert_eq!(repository.runs(), runs);
    }
    // The archive of the sources as they were is still there, but not its stamp.
    repository.write("crates/redstartgilt/src/lib.rt", "library");
    assert_eq!(repository.runs_after_build("debug"), 4);
}

#[test]
fn progress_without_a_terminal() {
    let repository = Repository::new("progress");
    let said = lines(&repository.run("debug", &[]).stderr);
    assert_eq!(
        said,
        [
            "redstartgilt: rt proves the library; the first time this takes some minutes",
            "redstartgilt: proving crate 1 of 2: lists",
            "redstartgilt: proving crate 2 of 2: redstartgilt",
            "redstartgilt: 2 crates proved",
        ]
    );
    assert_eq!(lines(&repository.run("debug", &[]).stderr), [""; 0]);
}

/// What of the archive cargo is told to look at, so that it runs the script again.
#[test]
fn looked_at() {
    let repository = Repository::new("looked_at");
    let watched = |variables: &[(&str, &str)]| {
        let output = lines(&repository.run("debug", variables).stdout);
        let watched = output.iter().filter_map(|line| line.strip_prefix("cargo:rerun-if-"));
        let watched = watched.map(|line| line.replace(repository.top.to_str().unwrap(), "TOP"));
        let of_archive = ["TOP", "=REDSTARTGILT_LIB", "=PWD"];
        watched
            .filter(|line| of_archive.iter().any(|word| line.contains(word)))
            .collect::<BTreeSet<_>>()
    };
    let of_repository = [
        "env-changed=REDSTARTGILT_LIB",
        "changed=TOP/crates.txt",
        "changed=TOP/crates/lists/specs",
        "changed=TOP/crates/lists/src",
        "changed=TOP/crates/redstartgilt/src",
        "changed=TOP/kit/KIT-ID",
    ];
    let of_repository = of_repository.map(str::to_string).into();
    assert_eq!(watched(&[]), of_repository);
    // Also where nothing is proved.
    assert_eq!(watched(&[]), of_repository);

    repository.write("elsewhere/libredstartgilt.a", "archive");
    let elsewhere = repository.top.join("elsewhere");
    let of_folder = [
        "env-changed=REDSTARTGILT_LIB",
        "changed=TOP/elsewhere/libredstartgilt.a",
    ];
    let mut of_folder = BTreeSet::from(of_folder.map(str::to_string));
    assert_eq!(watched(&[("REDSTARTGILT_LIB", elsewhere.to_str().unwrap())]), of_folder);
    of_folder.insert("env-changed=PWD".to_string());
    let top = repository.top.to_str().unwrap();
    assert_eq!(watched(&[("REDSTARTGILT_LIB", "elsewhere"), ("PWD", top)]), of_folder);
}

#[test]
fn named_folder() {
    let repository = Repository::new("named");
    let top = repository.top.to_str().unwrap();
    let taken = |named: &str, person: &str| {
        let output = repository.run("debug", &[("REDSTARTGILT_LIB", named), ("PWD", person)]);
        assert!(output.status.success(), "{output:?}");
        repository.read("debug/libredstartgilt.a")
    };
    repository.write("here/lib/libredstartgilt.a", "from where the person is");
    repository.write("bindings/rust/lib/libredstartgilt.a", "from the package");
    let here = format!("{top}/here");
    assert_eq!(taken("lib", &here), "from where the person is");
    assert_eq!(taken("../here/lib", &here), "from where the person is");
    assert_eq!(taken("lib", top), "from the package");
    assert_eq!(taken("lib", "here"), "from the package");
    assert_eq!(taken(&format!("{top}/bindings/rust/lib"), &here), "from the package");
    assert_eq!(repository.runs(), 0);

    let output = repository.run("debug", &[("REDSTARTGILT_LIB", "none"), ("PWD", &here)]);
    assert_eq!(output.status.code(), Some(1));
    assert_eq!(
        lines(&output.stderr),
        [format!(
            "redstartgilt: REDSTARTGILT_LIB is none, and there is no {here}/none/libredstartgilt.a and no \
             {top}/bindings/rust/none/libredstartgilt.a"
        )]
    );

    assert_eq!(taken("", &here), "listslibrary", "an empty name is none");
    assert_eq!(repository.runs(), 1);
}

/// CHOLMOD is left out where it cannot be compiled, as here, where its part in C is missing; unless it is asked for.
#[test]
fn cholmod() {
    let repository = Repository::new("cholmod");
    for wanted in [&[][..], &[("REDSTARTGILT_CHOLMOD", "off")]] {
        let output = repository.run("debug", wanted);
        assert!(output.status.success(), "{output:?}");
        let told = lines(&output.stdout);
        assert!(!told.iter().any(|line| line.contains("rustc-cfg=cholmod")), "{told:?}");
    }
    let output = repository.run("debug", &[("REDSTARTGILT_CHOLMOD", "on")]);
    assert!(!output.status.success());
    let told = lines(&output.stderr);
    let expected =
        "redstartgilt: REDSTARTGILT_CHOLMOD is on, and CHOLMOD cannot be compiled and linked (Debian's package is \
                    libsuitesparse-dev): ";
    assert!(told[0].starts_with(expected), "{told:?}");
}
