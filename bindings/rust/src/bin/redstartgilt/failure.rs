//! What ends the command: a message and an exit status.

use std::fmt::Display;
use std::io;
use std::path::Path;

/// Something about a file, or its contents.
pub const BAD_FILE: u8 = 1;
/// Something about the words of the command line.
pub const BAD_USAGE: u8 = 2;
/// The closed set passes the limit, so there are no values.
pub const TOO_MANY_PAIRS: u8 = 3;
/// With `--exact`, a number for which the theorem does not cover the call.
pub const NOT_EXACT: u8 = 4;
/// The factor is not that of the matrix Q which it is held against.
pub const NOT_OF_PRECISION: u8 = 5;
/// A refusal's number is added to this.
pub const REFUSED: u8 = 10;

/// A message, and the status that the command exits with.
#[derive(Debug, Clone, PartialEq, Eq)]
pub struct Failure {
    pub message: String,
    pub status: u8,
}

impl Failure {
    pub fn usage(message: impl Display) -> Self {
        Self {
            message: format!("{message}; try --help"),
            status: BAD_USAGE,
        }
    }

    pub fn in_file(file: &Path, message: impl Display) -> Self {
        Self {
            message: format!("{}: {message}", file.display()),
            status: BAD_FILE,
        }
    }

    pub fn at_line(file: &Path, line: usize, message: impl Display) -> Self {
        Self {
            message: format!("{}:{line}: {message}", file.display()),
            status: BAD_FILE,
        }
    }

    pub fn too_many_pairs(limit: usize) -> Self {
        Self {
            message: format!(
                "ClosureTooLarge: the requests need more than {limit} entries, so none is given; raise --limit"
            ),
            status: TOO_MANY_PAIRS,
        }
    }

    /// The same for rows of operators, whose limit is that of the library.
    pub fn too_many_pairs_of_rows(limit: usize) -> Self {
        Self {
            message: format!(
                "ClosureTooLarge: the rows need more than {limit} entries, 10 times those of the factor, so none is given"
            ),
            status: TOO_MANY_PAIRS,
        }
    }

    /// The library's refusal, with the place that it is about.
    pub fn refused_at(place: impl Display, error: redstartgilt::Error) -> Self {
        Self::refused_because(place, error, error.reason())
    }

    /// The same with a reason that says more than the refusal's own.
    pub fn refused_because(place: impl Display, error: redstartgilt::Error, reason: impl Display) -> Self {
        Self {
            message: format!("{place}: refusal {}: {reason}", error.number()),
            status: REFUSED + error.number() as u8,
        }
    }
}

/// What became of writing to standard output. A reader that stops reading, as `head` does, is no failure.
pub fn written(result: io::Result<()>) -> Result<(), Failure> {
    match result {
        Err(error) if error.kind() != io::ErrorKind::BrokenPipe => Err(Failure {
            message: format!("cannot write the output: {error}"),
            status: BAD_FILE,
        }),
        _ => Ok(()),
    }
}
