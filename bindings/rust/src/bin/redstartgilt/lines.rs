//! The lines of a file, for messages that name them.

use crate::failure::Failure;
use std::path::Path;

/// The lines of a text, numbered from 1.
pub struct Lines<'a> {
    file: &'a Path,
    rest: &'a [u8],
    number: usize,
}

impl<'a> Lines<'a> {
    pub fn new(file: &'a Path, text: &'a [u8]) -> Self {
        Self {
            file,
            rest: text,
            number: 0,
        }
    }

    /// The next line without its end.
    pub fn next(&mut self) -> Result<Option<(usize, &'a str)>, Failure> {
        if self.rest.is_empty() {
            return Ok(None);
        }
        self.number += 1;
        let end = self.rest.iter().position(|byte| *byte == b'\n');
        let (line, rest) = match end {
            Some(end) => (&self.rest[..end], &self.rest[end + 1..]),
            None => (self.rest, &self.rest[self.rest.len()..]),
        };
        self.rest = rest;
        match std::str::from_utf8(line) {
            Ok(line) => Ok(Some((self.number, line.strip_suffix('\r').unwrap_or(line)))),
            Err(_) => Err(Failure::at_line(self.file, self.number, "the line is not text")),
        }
    }

    /// The next line that is neither blank nor a comment.
    pub fn next_filled(&mut self, is_comment: impl Fn(&str) -> bool) -> Result<Option<(usize, &'a str)>, Failure> {
        while let Some((number, line)) = self.next()? {
            if !line.trim().is_empty() && !is_comment(line) {
                return Ok(Some((number, line)));
            }
        }
        Ok(None)
    }
}
