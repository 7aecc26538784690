//! Where a person is told what is being proved.

use std::fs::{File, OpenOptions};
use std::io::{self, Write};

/// In a terminal one line, which each message takes over. Where there is none a line each on stderr, which cargo shows at
/// once with -vv, and otherwise where the build fails.
pub struct Progress {
    name: &'static str,
    terminal: Option<File>,
}

impl Progress {
    /// Messages begin with the name.
    pub fn new(name: &'static str) -> Self {
        Progress {
            name,
            terminal: OpenOptions::new().write(true).open("/dev/tty").ok(),
        }
    }

    /// A message that the next one takes the place of.
    pub fn show(&mut self, message: &str) {
        self.write(message, "");
    }

    /// A message that stays.
    pub fn say(&mut self, message: &str) {
        self.write(message, "\n");
    }

    /// Whether a message can be written does not matter to the build.
    fn write(&mut self, message: &str, end: &str) {
        let name = self.name;
        let _ = match &mut self.terminal {
            // From the line's start, and what the line held before is cleared.
            Some(terminal) => write!(terminal, "\r{name}: {message}\x1b[K{end}"),
            None => writeln!(io::stderr(), "{name}: {message}"),
        };
    }
}
