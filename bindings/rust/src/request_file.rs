//! Why a request file is refused, in words.
//!
//! The library decides whether a file is refused, and by which number. What stands here is run after a refusal alone:
//! it looks for the first line with a fault of that number, and says nothing of other faults.

use crate::lent;
use crate::{Error, MAX_DIMENSION, MAX_ENTRIES};
use std::{fmt, io};

/// The first line of a request file, which is a Matrix Market file of requested pairs.
///
/// After it come comment lines, each with `%` as its first byte; then a line with rows, columns and the number of
/// entries; then so many lines with row and column of a pair, counted from 1, on or below the diagonal; without such lines
/// the file means all diagonals. A number is one
/// or more digits; spaces and tabs part the numbers of a line and may also stand around them. Lines end in LF, the last
/// perhaps without it, and those after the header that are empty or only spaces and tabs are skipped.
pub const REQUEST_FILE_HEADER: &str = "%%MatrixMarket matrix coordinate pattern symmetric";

/// Why a request file is refused: the number, the line that is at fault, and the reason in words.
///
/// The number is the library's. Of several faults of that number the first in the file is told.
///
/// ```
/// use redstartgilt::{Error, RequestFileFault};
///
/// let text = b"%%MatrixMarket matrix coordinate pattern symmetric\n8 8 2\n5 5\n9 3\n";
/// let fault = RequestFileFault::find(text).expect("the file is refused");
/// assert_eq!(fault.error, Error::FileIndexOutside);
/// assert_eq!(fault.line, Some(4));
/// assert_eq!(fault.reason, "row 9 is beyond the dimension 8");
/// assert_eq!(fault.to_string(), "refusal 17: line 4: row 9 is beyond the dimension 8");
/// ```
#[derive(Debug, Clone, PartialEq, Eq)]
pub struct RequestFileFault {
    /// The refusal: [`Error::OtherHeader`], [`Error::MalformedFile`] or [`Error::FileIndexOutside`].
    pub error: Error,
    /// The line at fault, counted from 1; `None` where a line is missing.
    pub line: Option<usize>,
    /// What is wrong with it.
    pub reason: String,
}

impl RequestFileFault {
    /// The fault of a file that the library refuses; `None` for one that it accepts, given lists that are long enough.
    pub fn find(text: &[u8]) -> Option<Self> {
        // No lists are lent, so nothing is written. They are the last that is looked at.
        match lent::read_requests(text, &mut [], &mut []) {
            Ok(_) | Err(Error::TooShort) => None,
            Err(error) => Some(Self::of_refusal(text, error)),
        }
    }

    /// The fault of a text that the library refuses with `error`.
    pub(crate) fn of_refusal(text: &[u8], error: Error) -> Self {
        let checked = match error {
            Error::OtherHeader => check_header(text),
            Error::MalformedFile => check_form(text),
            Error::FileIndexOutside => check_indices(text),
            _ => Ok(()),
        };
        match checked {
            Err(Fault { line, reason }) => Self { error, line, reason },
            // Nothing is found here, but the library decides.
            Ok(()) => Self {
                error,
                line: None,
                reason: error.reason().to_string(),
            },
        }
    }
}

impl fmt::Display for RequestFileFault {
    fn fmt(&self, formatter: &mut fmt::Formatter<'_>) -> fmt::Result {
        write!(formatter, "refusal {}: ", self.error.number())?;
        if let Some(line) = self.line {
            write!(formatter, "line {line}: ")?;
        }
        formatter.write_str(&self.reason)
    }
}

impl std::error::Error for RequestFileFault {}

/// Why a request file gives no pairs.
#[derive(Debug)]
pub enum RequestFileError {
    /// It cannot be read.
    Unreadable(io::Error),
    /// The library refuses it.
    Refused(RequestFileFault),
}

impl fmt::Display for RequestFileError {
    fn fmt(&self, formatter: &mut fmt::Formatter<'_>) -> fmt::Result {
        match self {
            RequestFileError::Unreadable(error) => write!(formatter, "the file cannot be read: {error}"),
            RequestFileError::Refused(fault) => fault.fmt(formatter),
        }
    }
}

impl std::error::Error for RequestFileError {}

/// Why a set of pairs is not written to a request file.
#[derive(Debug)]
pub enum RequestFileWriteError {
    /// The file cannot be written.
    Unwritable(io::Error),
    /// The library refuses the set.
    Refused(Error),
}

impl fmt::Display for RequestFileWriteError {
    fn fmt(&self, formatter: &mut fmt::Formatter<'_>) -> fmt::Result {
        match self {
            RequestFileWriteError::Unwritable(error) => write!(formatter, "the file cannot be written: {error}"),
            RequestFileWriteError::Refused(error) => {
                write!(formatter, "refusal {}: {}", error.number(), error.reason())
            }
        }
    }
}

impl std::error::Error for RequestFileWriteError {}

/// What is wrong, and in which line.
struct Fault {
    line: Option<usize>,
    reason: String,
}

impl Fault {
    fn at(line: usize, reason: impl Into<String>) -> Self {
        Self {
            line: Some(line),
            reason: reason.into(),
        }
    }
}

fn is_blank(byte: &u8) -> bool {
    matches!(byte, b' ' | b'\t')
}

/// A field or line in quotes: printable ASCII as it is, other bytes escaped, no more than the first 60.
fn quoted(bytes: &[u8]) -> String {
    const MOST: usize = 60;
    let more = if bytes.len() > MOST { "..." } else { "" };
    format!("\"{}{more}\"", bytes[..bytes.len().min(MOST)].escape_ascii())
}

fn counted(count: usize, name: &str) -> String {
    let plural = if count == 1 { "" } else { "s" };
    format!("{count} {name}{plural}")
}

/// The first fault that is refused with 15.
fn check_header(text: &[u8]) -> Result<(), Fault> {
    const BYTE_ORDER_MARK: &[u8] = b"\xef\xbb\xbf";
    let header = REQUEST_FILE_HEADER.as_bytes();
    let line = text.split(|byte| *byte == b'\n').next().unwrap_or(text);
    if line == header {
        return Ok(());
    }
    let fields = line.split(is_blank).filter(|field| !field.is_empty());
    let reason = if text.is_empty() {
        format!("the file is empty; its first line must be exactly \"{REQUEST_FILE_HEADER}\"")
    } else if line.strip_suffix(b"\r") == Some(header) {
        "a carriage return (CR) follows the header; lines must end in LF alone".to_string()
    } else if line.strip_prefix(BYTE_ORDER_MARK) == Some(header) {
        "a byte order mark stands before the header".to_string()
    } else if fields.eq(header.split(is_blank)) {
        "the header must have single spaces between its words and none around them".to_string()
    } else {
        format!(
            "the first line must be exactly \"{REQUEST_FILE_HEADER}\", and is {}",
            quoted(line)
        )
    };
    Err(Fault::at(1, reason))
}

/// The size line and the lines after it, each with its number; blank lines are left out.
fn lines_from_sizes(text: &[u8]) -> impl Iterator<Item = (usize, &[u8])> {
    text.split(|byte| *byte == b'\n')
        .enumerate()
        .map(|(place, line)| (place + 1, line))
        .skip(1)
        .filter(|(_, line)| !line.iter().all(is_blank))
        .skip_while(|(_, line)| line.starts_with(b"%"))
}

/// The digits of a number without leading zeros; none for 0.
#[derive(Clone, Copy, PartialEq, Eq)]
struct Digits<'a>(&'a [u8]);

impl<'a> Digits<'a> {
    fn read(field: &'a [u8]) -> Option<Self> {
        let zeros = field.iter().take_while(|byte| **byte == b'0').count();
        let digits = !field.is_empty() && field.iter().all(u8::is_ascii_digit);
        digits.then_some(Self(&field[zeros..]))
    }

    /// `usize::MAX` where the number is more.
    fn value(self) -> usize {
        self.0.iter().fold(0, |value: usize, digit| {
            value.saturating_mul(10).saturating_add(usize::from(digit - b'0'))
        })
    }
}

/// The number; of a long one the first digits and how many there are.
impl fmt::Display for Digits<'_> {
    fn fmt(&self, formatter: &mut fmt::Formatter<'_>) -> fmt::Result {
        match self.0 {
            [] => formatter.write_str("0"),
            digits if digits.len() > 20 => {
                write!(
                    formatter,
                    "{}... (a number of {} digits)",
                    digits[..8].escape_ascii(),
                    digits.len()
                )
            }
            digits => digits.escape_ascii().fmt(formatter),
        }
    }
}

/// The numbers of a line; `must` says what it must be.
fn numbers<'a, const COUNT: usize>(line: &'a [u8], must: &str) -> Result<[Digits<'a>; COUNT], String> {
    if line.contains(&b'\r') {
        return Err("a carriage return (CR) is in the line; lines must end in LF alone".to_string());
    }
    let fields = || line.split(is_blank).filter(|field| !field.is_empty());
    let count = fields().count();
    if count != COUNT {
        return Err(format!("{must}, and this line has {}", counted(count, "field")));
    }
    let mut found = [Digits(&[]); COUNT];
    for (place, field) in found.iter_mut().zip(fields()) {
        *place = Digits::read(field).ok_or_else(|| format!("{must}, and {} is not digits alone", quoted(field)))?;
    }
    Ok(found)
}

/// Whether a line would be a comment but for the place where it stands.
fn is_misplaced_comment(line: &[u8]) -> bool {
    line.iter().find(|byte| !is_blank(byte)) == Some(&b'%')
}

/// The common size and the entry count of the size line.
fn sizes(line: &[u8]) -> Result<(usize, usize), String> {
    if is_misplaced_comment(line) {
        return Err("a comment line must have % as its first byte, and a space or tab stands before it".to_string());
    }
    let [rows, columns, entries] = numbers::<3>(line, "the size line is three numbers, rows, columns and entries")?;
    if rows != columns {
        return Err(format!(
            "the sizes must be equal, and are {rows} rows and {columns} columns"
        ));
    }
    if rows.value() > MAX_DIMENSION {
        return Err(format!("the size {rows} is above {MAX_DIMENSION}"));
    }
    if entries.value() > MAX_ENTRIES {
        return Err(format!("the entry count {entries} is above {MAX_ENTRIES}"));
    }
    Ok((rows.value(), entries.value()))
}

/// Row and column of an entry line.
fn entry(line: &[u8]) -> Result<[Digits<'_>; 2], String> {
    if is_misplaced_comment(line) {
        return Err("a comment is among the entries; comment lines must stand before the size line".to_string());
    }
    numbers::<2>(line, "an entry is two numbers")
}

/// The first fault that is refused with 16, in a file whose header passes.
fn check_form(text: &[u8]) -> Result<(), Fault> {
    let mut lines = lines_from_sizes(text);
    let Some((size_line, line)) = lines.next() else {
        return Err(Fault {
            line: None,
            reason: "the file ends before its size line, the line with rows, columns and entries".to_string(),
        });
    };
    let (_, entries) = sizes(line).map_err(|reason| Fault::at(size_line, reason))?;
    let mut found = 0;
    for (number, line) in lines {
        entry(line).map_err(|reason| Fault::at(number, reason))?;
        found += 1;
    }
    if found == entries {
        return Ok(());
    }
    let lines = counted(found, "entry line");
    Err(Fault::at(
        size_line,
        format!("the entry count is {entries}, and the file has {lines}"),
    ))
}

/// The first fault that is refused with 17, in a file whose form passes.
fn check_indices(text: &[u8]) -> Result<(), Fault> {
    let mut lines = lines_from_sizes(text);
    let Some(Ok((dimension, _))) = lines.next().map(|(_, line)| sizes(line)) else {
        return Ok(());
    };
    for (number, line) in lines {
        let Ok([row, column]) = entry(line) else {
            return Ok(());
        };
        for (name, index) in [("row", row), ("column", column)] {
            if index.value() == 0 {
                return Err(Fault::at(number, format!("{name} 0 is outside: indices count from 1")));
            }
            if index.value() > dimension {
                return Err(Fault::at(
                    number,
                    format!("{name} {index} is beyond the dimension {dimension}"),
                ));
            }
        }
        if row.value() < column.value() {
            return Err(Fault::at(
                number,
                format!("entry ({row}, {column}) is above the diagonal: its row must be at least its column"),
            ));
        }
    }
    Ok(())
}

#[cfg(test)]
mod tests {
    use super::{check_form, check_header, check_indices, Fault, RequestFileFault, REQUEST_FILE_HEADER};
    use crate::{lent, Error};

    /// The refusal that the checks here give by themselves, with what they say.
    fn first_fault(text: &[u8]) -> Option<(Error, Fault)> {
        let of = |error| move |fault| (error, fault);
        check_header(text)
            .map_err(of(Error::OtherHeader))
            .and_then(|()| check_form(text).map_err(of(Error::MalformedFile)))
            .and_then(|()| check_indices(text).map_err(of(Error::FileIndexOutside)))
            .err()
    }

    /// Asserts that the checks and the library refuse alike, and that what is told is what the checks found.
    fn assert_agrees(text: &[u8]) -> Option<Error> {
        let shown = text.escape_ascii().to_string();
        let places = lent::request_places(text);
        let (mut rows, mut columns) = (vec![0; places], vec![0; places]);
        let refused = lent::read_requests(text, &mut rows, &mut columns).err();
        let found = first_fault(text);
        assert_eq!(found.as_ref().map(|(error, _)| *error), refused, "{shown}");
        let told = RequestFileFault::find(text).map(|told| (told.error, told.line, told.reason));
        let expected = found.map(|(error, Fault { line, reason })| (error, line, reason));
        assert_eq!(told, expected, "{shown}");
        refused
    }

    /// Numbers in no order that matters (xorshift).
    struct Random(u64);

    impl Random {
        fn below(&mut self, bound: usize) -> usize {
            self.0 ^= self.0 << 13;
            self.0 ^= self.0 >> 7;
            self.0 ^= self.0 << 17;
            (self.0 % bound as u64) as usize
        }

        fn of<'a>(&mut self, choices: &[&'a str]) -> &'a str {
            choices[self.below(choices.len())]
        }
    }

    /// A file of up to five entries in dimension 3, mostly well formed, then perhaps some bytes changed.
    fn random_text(random: &mut Random) -> Vec<u8> {
        let mut text = format!("{REQUEST_FILE_HEADER}\n");
        let filler = |random: &mut Random| random.of(&["", "", "", "", "\n", " \t\n"]);
        for _ in 0..random.below(3) {
            text += random.of(&["%\n", "% 3 3 1\n", "\n"]);
        }
        let entries = random.below(6);
        let sizes = random.of(&["3 3", "3 3", "3 3", "03\t3", " 3  3", "3 4", "4097 4097", "0 0"]);
        let count = entries + random.below(8) / 7;
        text += &format!("{sizes} {count}\n");
        for _ in 0..entries {
            text += filler(random);
            let index = |random: &mut Random| random.of(&["1", "1", "2", "02", "3", "1", "2", "3", "0", "4"]);
            let (row, column) = if random.below(6) > 0 {
                (random.of(&["3", "003", "3 "]), random.of(&["1", "2", "3", "03"]))
            } else {
                (index(random), index(random))
            };
            text += &format!("{row}{}{column}\n", random.of(&[" ", " ", "\t", "  "]));
        }
        text += filler(random);
        let mut text = text.into_bytes();
        if random.below(4) == 0 {
            text.pop();
        }
        if random.below(2) == 0 {
            for _ in 0..1 + random.below(2) {
                // Mostly after the header.
                let from = if random.below(8) == 0 {
                    0
                } else {
                    REQUEST_FILE_HEADER.len()
                };
                let place = from + random.below(text.len() + 1 - from.min(text.len()));
                let byte = b"0123 \t\n\r%x"[random.below(10)];
                match random.below(3) {
                    0 => text.insert(place.min(text.len()), byte),
                    1 if place < text.len() => text[place] = byte,
                    _ if place < text.len() => drop(text.remove(place)),
                    _ => {}
                }
            }
        }
        text
    }

    #[test]
    fn random_files_are_refused_for_what_is_told() {
        let mut random = Random(0x9e37_79b9_7f4a_7c15);
        let mut replies = [0; 4];
        for _ in 0..40_000 {
            let place = match assert_agrees(&random_text(&mut random)) {
                None => 0,
                Some(error) => error.number() as usize - 14,
            };
            replies[place] += 1;
        }
        // Each reply comes often.
        assert!(replies.iter().all(|count| *count > 800), "{replies:?}");
    }

    #[test]
    fn a_number_of_another_refusal_tells_no_line() {
        let fault = RequestFileFault::of_refusal(b"no file", Error::TooShort);
        assert_eq!((fault.line, fault.reason.as_str()), (None, Error::TooShort.reason()));
        // As would a number that the checks do not find.
        let accepted = format!("{REQUEST_FILE_HEADER}\n1 1 0\n");
        for error in [Error::OtherHeader, Error::MalformedFile, Error::FileIndexOutside] {
            let fault = RequestFileFault::of_refusal(accepted.as_bytes(), error);
            assert_eq!(fault.to_string(), error.to_string());
        }
    }
}
