//! Runs `rt lib`, and follows what it says.

use crate::progress::Progress;
use std::io::{self, BufRead, BufReader, Read};
use std::path::Path;
use std::process::{Command, ExitStatus, Stdio};
use std::thread;

/// The crate that a line of rt says it begins to prove. One that is proved already has no such line.
fn begun(line: &str) -> Option<&str> {
    let (_, name) = line.strip_prefix("rt: chose --jobs ")?.split_once(" for ")?;
    Some(name.trim_end())
}

/// Tells which crate is being proved while rt's lines come in; what rt said of the last one, at which it ends where that is
/// not proved.
fn follow(rt: impl Read, order: &[&str], progress: &mut Progress) -> String {
    let mut said = String::new();
    for line in BufReader::new(rt).split(b'\n').map_while(Result::ok) {
        let line = String::from_utf8_lossy(&line);
        let place = begun(&line).and_then(|name| order.iter().position(|other| *other == name));
        if let Some(place) = place {
            progress.show(&format!(
                "proving crate {} of {}: {}",
                place + 1,
                order.len(),
                order[place]
            ));
            said.clear();
        }
        said += &format!("{line}\n");
    }
    said
}

/// Runs `rt lib` in the folder of the library's crate: how it ended, and what it said of what is not proved.
pub fn run_rt(folder: &Path, order: &[&str], progress: &mut Progress) -> io::Result<(ExitStatus, String)> {
    let mut rt = Command::new("rt")
        .arg("lib")
        .current_dir(folder)
        .stdout(Stdio::piped())
        .stderr(Stdio::piped())
        .spawn()?;
    progress.say("rt proves the library; the first time this takes some minutes");
    // What the prover says comes on stdout, and on stderr what rt says of it.
    let mut stderr = rt.stderr.take().expect("piped");
    let rest = thread::spawn(move || {
        let mut text = Vec::new();
        let _ = stderr.read_to_end(&mut text);
        text
    });
    let said = follow(rt.stdout.take().expect("piped"), order, progress);
    let rest = rest.join().expect("reads to the end");
    Ok((rt.wait()?, said + &String::from_utf8_lossy(&rest)))
}
