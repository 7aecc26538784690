//! The command: what it prints, draws and refuses.

mod demo;
mod document;
mod exact;
mod factors;
mod files;
mod masks;
mod matrices;
mod mistakes;
mod operators;
mod pictures;
mod pivots;
mod precision;
mod ranges;
mod readme;
mod requests;
mod tracks;
mod usage;
mod variances;
mod wholes;
mod why;

use std::io::{ErrorKind, Write};
use std::path::{Path, PathBuf};
use std::process::{Command, Output, Stdio};

const F2: &str = "%%MatrixMarket matrix coordinate real general\n2 2 3\n1 1 1\n2 1 2\n2 2 1\n";
const F3: &str = "\
%%MatrixMarket matrix coordinate integer symmetric
% the factor of three columns
3 3 5

3 3 1
1 1 1
3 1 3
2 1 2
2 2 1
";

const HEADER: &str = "%%MatrixMarket matrix coordinate pattern symmetric";

const INNER_FAIRWAY: &str = concat!(env!("CARGO_MANIFEST_DIR"), "/examples/inner-fairway.mtx");

/// A variance of 0.0 that was computed, one that is infinite, and one that was not computed.
const WIDE: &str = "%%MatrixMarket matrix coordinate real general\n3 3 3\n1 1 1e200\n2 2 1e-200\n3 3 1\n";

/// A folder of one test's files.
struct Folder(PathBuf);

/// A test that passes leaves no files: `rt ci` takes no links, and copies all that lies in the checkout.
impl Drop for Folder {
    fn drop(&mut self) {
        if !std::thread::panicking() {
            let _ = std::fs::remove_dir_all(&self.0);
        }
    }
}

impl Folder {
    fn new(name: &str) -> Self {
        let folder = Path::new(env!("CARGO_TARGET_TMPDIR")).join(name);
        let _ = std::fs::remove_dir_all(&folder);
        std::fs::create_dir_all(&folder).unwrap();
        Self(folder)
    }

    fn write(&self, name: &str, text: impl AsRef<[u8]>) {
        std::fs::write(self.0.join(name), text).unwrap();
    }

    fn read(&self, name: &str) -> String {
        std::fs::read_to_string(self.0.join(name)).unwrap()
    }

    /// Runs the command in the folder.
    fn run(&self, words: &[&str]) -> Output {
        Command::new(env!("CARGO_BIN_EXE_redstartgilt"))
            .args(words)
            .current_dir(&self.0)
            .output()
            .unwrap()
    }

    /// Runs the command in the folder with this on standard input.
    fn run_with(&self, words: &[&str], input: &str) -> Output {
        let mut run = Command::new(env!("CARGO_BIN_EXE_redstartgilt"))
            .args(words)
            .current_dir(&self.0)
            .stdin(Stdio::piped())
            .stdout(Stdio::piped())
            .stderr(Stdio::piped())
            .spawn()
            .unwrap();
        // A run that is refused by its words may end before it reads.
        if let Err(error) = run.stdin.take().unwrap().write_all(input.as_bytes()) {
            assert_eq!(error.kind(), ErrorKind::BrokenPipe);
        }
        run.wait_with_output().unwrap()
    }

    fn prints(&self, words: &[&str]) -> String {
        let output = self.run(words);
        let errors = String::from_utf8(output.stderr).unwrap();
        assert_eq!(output.status.code(), Some(0), "{words:?}: {errors}");
        assert_eq!(errors, "", "{words:?}");
        String::from_utf8(output.stdout).unwrap()
    }

    /// The message of a run that fails with this status and prints nothing.
    fn fails(&self, words: &[&str], status: i32) -> String {
        let output = self.run(words);
        let message = String::from_utf8(output.stderr).unwrap();
        assert_eq!(output.status.code(), Some(status), "{words:?}: {message}");
        assert_eq!(String::from_utf8(output.stdout).unwrap(), "", "{words:?}");
        message
            .strip_prefix("redstartgilt: ")
            .and_then(|message| message.strip_suffix('\n'))
            .expect("one line that begins with the command's name")
            .to_string()
    }
}

/// The message of what was told on standard error in one line.
fn message(told: &str) -> String {
    let message = told
        .strip_prefix("redstartgilt: ")
        .and_then(|message| message.strip_suffix('\n'))
        .filter(|message| !message.contains('\n'));
    message
        .expect("one line that begins with the command's name")
        .to_string()
}
