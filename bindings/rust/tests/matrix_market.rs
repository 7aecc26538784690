//! Requests from and to Matrix Market files: what is read, what is refused, which line is told, and what is written.

use redstartgilt::lent::{self, FileRequests};
use redstartgilt::{
    sys, Error, RequestFileError, RequestFileFault, SparseSymmetricPattern, MAX_DIMENSION, MAX_ENTRIES,
    REQUEST_FILE_HEADER,
};
use std::path::Path;

/// What lent lists hold before a call.
const BEFORE: u32 = 7777;

/// The header, then these lines.
fn file(rest: impl AsRef<[u8]>) -> Vec<u8> {
    [REQUEST_FILE_HEADER.as_bytes(), b"\n", rest.as_ref()].concat()
}

/// Dimension and pairs, in file order. Lists that are longer than needed keep their later places, and those of a
/// refused file all.
fn read(text: &[u8]) -> Result<(usize, Vec<(u32, u32)>), Error> {
    let places = lent::request_places(text);
    let (mut rows, mut columns) = (vec![BEFORE; places + 2], vec![BEFORE; places + 1]);
    let reply = lent::read_requests(text, &mut rows, &mut columns);
    let filled = reply.map_or(0, |file| file.requests);
    let later = rows[filled..].iter().chain(&columns[filled..]);
    assert!(later.into_iter().all(|word| *word == BEFORE));
    let pairs = rows.into_iter().zip(columns).take(filled);
    reply.map(|file| (file.dimension, pairs.collect()))
}

fn accepted(text: impl AsRef<[u8]>, dimension: usize, pairs: &[(u32, u32)]) {
    let text = text.as_ref();
    let shown = text.escape_ascii().to_string();
    assert_eq!(read(text), Ok((dimension, pairs.to_vec())), "{shown}");
    assert_eq!(RequestFileFault::find(text), None, "{shown}");
    let pattern = SparseSymmetricPattern::from_matrix_market(text).unwrap();
    assert_eq!(pattern.dimension, dimension, "{shown}");
    let set = pairs.iter().map(|(row, column)| (*row as usize, *column as usize));
    assert_eq!(pattern.pairs, set.collect(), "{shown}");
}

/// Refused with this number, whatever is lent; the line and the reason that are told.
fn refused(text: impl AsRef<[u8]>, error: Error, line: impl Into<Option<usize>>, reason: &str) {
    let text = text.as_ref();
    let shown = text.escape_ascii().to_string();
    assert_eq!(read(text), Err(error), "{shown}");
    assert_eq!(lent::read_requests(text, &mut [], &mut []), Err(error), "{shown}");
    assert_eq!(SparseSymmetricPattern::from_matrix_market(text), Err(error), "{shown}");
    let expected = RequestFileFault {
        error,
        line: line.into(),
        reason: reason.to_string(),
    };
    assert_eq!(RequestFileFault::find(text), Some(expected), "{shown}");
}

fn malformed(rest: impl AsRef<[u8]>, line: impl Into<Option<usize>>, reason: &str) {
    refused(file(rest), Error::MalformedFile, line, reason);
}

fn outside(rest: impl AsRef<[u8]>, line: usize, reason: &str) {
    refused(file(rest), Error::FileIndexOutside, line, reason);
}

#[test]
fn files_that_are_read() {
    accepted(file("3 3 2\n3 1\n2 2\n"), 3, &[(2, 0), (1, 1)]);
    // In file order, repeats kept.
    accepted(
        file("3 3 5\n3 3\n1 1\n3 2\n1 1\n3 3\n"),
        3,
        &[(2, 2), (0, 0), (2, 1), (0, 0), (2, 2)],
    );
    // Comments of any bytes, blank lines, tabs, leading zeros, and no last line end.
    accepted(
        file(b"%\n% \xff\0\r\n\n \t \n%% 9 9 9\n\n\t3 \t 03 00002  \n\n003\t1 \n\t\n 2 2"),
        3,
        &[(2, 0), (1, 1)],
    );
    accepted(file("2 2 1\n2 1\n\n \n\t"), 2, &[(1, 0)]);
    accepted(file(format!("{0}2 2 {0}1\n{0}2 {0}1\n", "0".repeat(400))), 2, &[(1, 0)]);
    // Without entries every diagonal cell, ascending.
    accepted(file("2 2 0\n"), 2, &[(0, 0), (1, 1)]);
    accepted(file("%\n\n3 3 00"), 3, &[(0, 0), (1, 1), (2, 2)]);
    accepted(file("1 1 0\n"), 1, &[(0, 0)]);
    accepted(file("0 0 0"), 0, &[]);
    accepted(file("00 0 000\n\n"), 0, &[]);
}

#[test]
fn lists_that_are_lent() {
    let text = file("3 3 2\n3 1\n2 2\n");
    let reply = Ok(FileRequests {
        dimension: 3,
        requests: 2,
    });
    let mut rows = [BEFORE; 4];
    let mut columns = [BEFORE; 2];
    assert_eq!(lent::read_requests(&text, &mut rows, &mut columns), reply);
    assert_eq!((rows, columns), ([2, 1, BEFORE, BEFORE], [0, 1]));
    // Either list one place short, the other long enough.
    let mut lists = [[BEFORE; 4]; 2];
    let [rows, columns] = &mut lists;
    assert_eq!(
        lent::read_requests(&text, &mut rows[..1], columns),
        Err(Error::TooShort)
    );
    assert_eq!(
        lent::read_requests(&text, rows, &mut columns[..1]),
        Err(Error::TooShort)
    );
    assert_eq!(lists, [[BEFORE; 4]; 2]);
    // Without entries a place is needed for each diagonal cell, and for none of no cells.
    let text = file("3 3 0");
    let reply = Ok(FileRequests {
        dimension: 3,
        requests: 3,
    });
    let (mut rows, mut columns) = ([BEFORE; 3], [BEFORE; 4]);
    for (row_places, column_places) in [(2, 4), (3, 2), (0, 0)] {
        let reply = lent::read_requests(&text, &mut rows[..row_places], &mut columns[..column_places]);
        assert_eq!(reply, Err(Error::TooShort));
    }
    assert_eq!((rows, columns), ([BEFORE; 3], [BEFORE; 4]));
    assert_eq!(lent::read_requests(&text, &mut rows, &mut columns), reply);
    assert_eq!((rows, columns), ([0, 1, 2], [0, 1, 2, BEFORE]));
    assert_eq!(
        lent::read_requests(&file("0 0 0"), &mut [], &mut []),
        Ok(FileRequests {
            dimension: 0,
            requests: 0
        })
    );
    // Short lists are the last that is looked at.
    for (rest, error) in [
        ("3 3 3\n3 1\n2 2\n", Error::MalformedFile),
        ("3 3 2\n3 1\n2 4\n", Error::FileIndexOutside),
    ] {
        assert_eq!(lent::read_requests(&file(rest), &mut [], &mut []), Err(error));
    }
}

/// The struct of the C interface: all but the refusal is 0 where there is one.
#[test]
fn replies() {
    for (text, reply) in [
        (file("3 3 1\n3 1\n"), [0, 3, 1]),
        (file("0 0 0\n"), [0, 0, 0]),
        (file("3 3 0\n"), [7, 0, 0]),
        (b"3 3 1\n3 1\n".to_vec(), [15, 0, 0]),
        (file("3 3 2\n3 1\n"), [16, 0, 0]),
        (file("3 3 1\n1 3\n"), [17, 0, 0]),
        (file("3 3 2\n3 1\n3 2\n"), [7, 0, 0]),
    ] {
        let (mut row, mut column) = (BEFORE, BEFORE);
        let found = unsafe { sys::redstartgilt_read_requests(text.as_ptr(), text.len(), &mut row, 1, &mut column, 1) };
        let found = [found.refusal as usize, found.dimension, found.requests];
        assert_eq!(found, reply, "{}", text.escape_ascii());
        let written = if found[2] == 1 { (2, 0) } else { (BEFORE, BEFORE) };
        assert_eq!((row, column), written);
    }
}

#[test]
fn other_headers() {
    let other = |text: &[u8], reason: &str| refused(text, Error::OtherHeader, 1, reason);
    let exactly = format!("must be exactly \"{REQUEST_FILE_HEADER}\"");
    other(b"", &format!("the file is empty; its first line {exactly}"));
    let is = |line: &str| format!("the first line {exactly}, and is \"{line}\"");
    other(b"\n", &is(""));
    other(b"2 2 0\n", &is("2 2 0"));
    other(format!("\n{REQUEST_FILE_HEADER}\n1 1 0\n").as_bytes(), &is(""));
    let general = "%%MatrixMarket matrix coordinate pattern general";
    other(format!("{general}\n1 1 0\n").as_bytes(), &is(general));
    let small = REQUEST_FILE_HEADER.to_lowercase();
    other(format!("{small}\n1 1 0\n").as_bytes(), &is(&small));
    let shorter = &REQUEST_FILE_HEADER[..REQUEST_FILE_HEADER.len() - 1];
    other(shorter.as_bytes(), &is(shorter));
    other(
        &[b"\xff".as_slice(), &[b'x'; 99]].concat(),
        &is(&format!("\\xff{}...", "x".repeat(59))),
    );
    other(
        format!("{REQUEST_FILE_HEADER}\r\n1 1 0\r\n").as_bytes(),
        "a carriage return (CR) follows the header; lines must end in LF alone",
    );
    other(
        format!("\u{feff}{REQUEST_FILE_HEADER}\n1 1 0\n").as_bytes(),
        "a byte order mark stands before the header",
    );
    for text in [
        format!("{REQUEST_FILE_HEADER} \n1 1 0\n"),
        format!(" {REQUEST_FILE_HEADER}\n1 1 0\n"),
        REQUEST_FILE_HEADER.replace(' ', "\t"),
        REQUEST_FILE_HEADER.replace(' ', "  "),
    ] {
        other(
            text.as_bytes(),
            "the header must have single spaces between its words and none around them",
        );
    }
}

#[test]
fn malformed_size_lines() {
    let missing = "the file ends before its size line, the line with rows, columns and entries";
    refused(REQUEST_FILE_HEADER, Error::MalformedFile, None, missing);
    malformed("", None, missing);
    malformed("% none\n\n \n", None, missing);
    let three = "the size line is three numbers, rows, columns and entries, and";
    malformed("2\n", 2, &format!("{three} this line has 1 field"));
    malformed("% c\n\n2 2\n1\n", 4, &format!("{three} this line has 2 fields"));
    malformed("2 2 0 0\n", 2, &format!("{three} this line has 4 fields"));
    for field in ["+2", "-0", "2.0", "2e0", "0x2", "2,", "x", "%"] {
        let reason = format!("{three} \"{field}\" is not digits alone");
        malformed(format!("2 2 {field}\n"), 2, &reason);
        malformed(format!("2 {field} 0\n"), 2, &reason);
    }
    for byte in [0, 11, 12, 160, 255] {
        let line = [b"2 2 0".as_slice(), &[byte], b"\n"].concat();
        let reason = format!("{three} \"0{}\" is not digits alone", [byte].escape_ascii());
        malformed(line, 2, &reason);
    }
    let comment = "a comment line must have % as its first byte, and a space or tab stands before it";
    malformed(" % c\n2 2 0\n", 2, comment);
    malformed("%\n\t%c\n2 2 0\n", 3, comment);
    malformed("2 3 0\n", 2, "the sizes must be equal, and are 2 rows and 3 columns");
    malformed(
        "0 00001 0\n",
        2,
        "the sizes must be equal, and are 0 rows and 1 columns",
    );
    malformed("4097 04097 0\n", 2, "the size 4097 is above 4096");
    malformed("2 2 1048577\n1 1\n", 2, "the entry count 1048577 is above 1048576");
}

#[test]
fn malformed_entry_lines() {
    let two = "an entry is two numbers, and";
    malformed("2 2 1\n1\n", 3, &format!("{two} this line has 1 field"));
    malformed("2 2 1\n1 1 1\n", 3, &format!("{two} this line has 3 fields"));
    malformed("2 2 2\n1 1 2 2\n", 3, &format!("{two} this line has 4 fields"));
    malformed("2 2 1\n\n1\n1\n", 4, &format!("{two} this line has 1 field"));
    for field in ["+1", "-1", "1.0", "x", "1_0"] {
        let reason = format!("{two} \"{field}\" is not digits alone");
        malformed(format!("2 2 2\n1 1\n{field} 1\n"), 4, &reason);
        malformed(format!("2 2 2\n1 1\n1 {field}"), 4, &reason);
    }
    let comment = "a comment is among the entries; comment lines must stand before the size line";
    malformed("2 2 1\n%c\n1 1\n", 3, comment);
    malformed("2 2 1\n1 1\n%c", 4, comment);
    malformed("2 2 1\n1 1\n %\n", 4, comment);
}

#[test]
fn carriage_returns() {
    let reason = "a carriage return (CR) is in the line; lines must end in LF alone";
    malformed("2 2 0\r\n", 2, reason);
    malformed("% c\r\n\r\n2 2 0\n", 3, reason);
    malformed("2 2 1\n1 1\r\n", 3, reason);
    malformed("2 2 1\n1 1\n\r", 4, reason);
    malformed("2 2 1\n1\r1\n", 3, reason);
}

#[test]
fn wrong_entry_counts() {
    let count = |entries: usize, lines: &str| format!("the entry count is {entries}, and the file has {lines}");
    malformed("2 2 1\n", 2, &count(1, "0 entry lines"));
    malformed("%\n2 2 0\n1 1\n", 3, &count(0, "1 entry line"));
    malformed("2 2 1\n1 1\n2 2\n", 2, &count(1, "2 entry lines"));
    malformed("2 2 6\n1 1\n1 1\n\n1 1\n1 1\n2 2", 2, &count(6, "5 entry lines"));
}

#[test]
fn indices_outside() {
    outside("2 2 1\n0 1\n", 3, "row 0 is outside: indices count from 1");
    outside("2 2 1\n1 00\n", 3, "column 0 is outside: indices count from 1");
    outside("2 2 2\n1 1\n3 1\n", 4, "row 3 is beyond the dimension 2");
    outside("8 8 3\n1 1\n\n 8 9\n9 9", 5, "column 9 is beyond the dimension 8");
    outside("0 0 1\n1 1\n", 3, "row 1 is beyond the dimension 0");
    outside(
        "3 3 2\n1 1\n01 3",
        4,
        "entry (1, 3) is above the diagonal: its row must be at least its column",
    );
    // Numbers that would fit if they were cut off to 32 or 64 bits.
    outside("2 2 1\n4294967297 1\n", 3, "row 4294967297 is beyond the dimension 2");
    outside(
        "2 2 1\n2 18446744073709551617\n",
        3,
        "column 18446744073709551617 is beyond the dimension 2",
    );
}

/// Numbers of 400 digits are numbers: a size or count too large, an index outside, 0.
#[test]
fn long_numbers() {
    let long = "123456789".repeat(50)[..400].to_string();
    let shown = "12345678... (a number of 400 digits)";
    malformed(
        format!("{long} {long} 0\n"),
        2,
        &format!("the size {shown} is above 4096"),
    );
    malformed(
        format!("{long} 2 0\n"),
        2,
        &format!("the sizes must be equal, and are {shown} rows and 2 columns"),
    );
    malformed(
        format!("2 2 {long}\n1 1\n"),
        2,
        &format!("the entry count {shown} is above 1048576"),
    );
    outside(
        format!("2 2 1\n{long} 1\n"),
        3,
        &format!("row {shown} is beyond the dimension 2"),
    );
    outside(
        format!("2 2 2\n1 1\n2 {long}"),
        4,
        &format!("column {shown} is beyond the dimension 2"),
    );
    outside(
        format!("2 2 1\n1 {}\n", "0".repeat(400)),
        3,
        "column 0 is outside: indices count from 1",
    );
}

/// All of 16 goes before all of 17, wherever it stands in the file; and 15 before both.
#[test]
fn order_of_the_refusals() {
    malformed(
        "2 2 2\n3 1\nx\n",
        4,
        "an entry is two numbers, and this line has 1 field",
    );
    malformed("2 2 2\n3 1\n", 2, "the entry count is 2, and the file has 1 entry line");
    malformed(
        "2 2 1\n3 1\n1 1\n",
        2,
        "the entry count is 1, and the file has 2 entry lines",
    );
    malformed(
        "2 3 1\n9 1\n",
        2,
        "the sizes must be equal, and are 2 rows and 3 columns",
    );
    let text = "%%MatrixMarket matrix coordinate real symmetric\n2 3 1\n9 1\n";
    assert_eq!(read(text.as_bytes()), Err(Error::OtherHeader));
}

#[test]
fn bounds() {
    let n = MAX_DIMENSION;
    accepted(file(format!("{n} {n} 1\n{n} {n}")), n, &[(n as u32 - 1, n as u32 - 1)]);
    let most = "2 1\n".repeat(MAX_ENTRIES);
    let (dimension, pairs) = read(&file(format!("2 2 {MAX_ENTRIES}\n{most}"))).unwrap();
    assert_eq!((dimension, pairs.len()), (2, MAX_ENTRIES));
    assert!(pairs.into_iter().all(|pair| pair == (1, 0)));
    let more = file(format!("2 2 {}\n{most}2 1\n", MAX_ENTRIES + 1));
    assert_eq!(read(&more), Err(Error::MalformedFile));
    // Of many blank lines no more places are needed than of entries.
    let blank = file(format!("2 2 1\n{}1 1\n", "\n".repeat(MAX_ENTRIES)));
    assert_eq!(lent::request_places(&blank), MAX_ENTRIES);
    accepted(blank, 2, &[(0, 0)]);
}

#[test]
fn files_by_path() {
    let path = Path::new(env!("CARGO_TARGET_TMPDIR")).join("cells.mtx");
    std::fs::write(&path, file("2 2 2\n2 1\n2 1\n")).unwrap();
    let pattern = SparseSymmetricPattern::read_matrix_market(&path).unwrap();
    assert_eq!(
        (pattern.dimension, pattern.pairs.into_iter().collect::<Vec<_>>()),
        (2, vec![(1, 0)])
    );
    std::fs::write(&path, file("2 2 1\n2\n")).unwrap();
    let error = SparseSymmetricPattern::read_matrix_market(&path).unwrap_err();
    assert_eq!(
        error.to_string(),
        "refusal 16: line 3: an entry is two numbers, and this line has 1 field"
    );
    let RequestFileError::Refused(fault) = error else {
        panic!("{error}")
    };
    assert_eq!(Some(fault), RequestFileFault::find(&file("2 2 1\n2\n")));
    std::fs::remove_file(&path).unwrap();
    let error = SparseSymmetricPattern::read_matrix_market(&path).unwrap_err();
    assert!(matches!(error, RequestFileError::Unreadable(_)));
    assert!(error.to_string().starts_with("the file cannot be read: "));
}

/// Requests as lists of rows and columns.
fn lists(pairs: &[(u32, u32)]) -> (Vec<u32>, Vec<u32>) {
    pairs.iter().copied().unzip()
}

/// The file of requests. The output keeps its later bytes, the scratch its later words, and those that are used end 0.
fn written(dimension: usize, pairs: &[(u32, u32)]) -> Result<Vec<u8>, Error> {
    let (rows, columns) = lists(pairs);
    let words = lent::mark_words(dimension);
    let mut scratch = vec![BEFORE; words + 1];
    let mut output = vec![b'x'; lent::request_file_bytes(pairs.len()) + 1];
    let bytes = lent::write_requests(dimension, &rows, &columns, &mut output, &mut scratch)?;
    assert!(output[bytes..].iter().all(|byte| *byte == b'x'));
    assert!(scratch[..words].iter().all(|word| *word == 0) && scratch[words] == BEFORE);
    output.truncate(bytes);
    Ok(output)
}

#[test]
fn files_that_are_written() {
    let is = |dimension, pairs: &[(u32, u32)], rest: &str| {
        assert_eq!(written(dimension, pairs), Ok(file(rest)), "{rest}");
    };
    // Each pair once, by column then row.
    is(2, &[(1, 0), (0, 0), (1, 0)], "2 2 2\n1 1\n2 1\n");
    is(3, &[(1, 1), (2, 0), (0, 0)], "3 3 3\n1 1\n3 1\n2 2\n");
    is(100, &[(99, 99), (99, 9), (9, 8)], "100 100 3\n10 9\n100 10\n100 100\n");
    is(1, &[(0, 0)], "1 1 1\n1 1\n");
    is(0, &[], "0 0 0\n");
    let n = MAX_DIMENSION as u32;
    is(
        MAX_DIMENSION,
        &[(n - 1, 0), (n - 1, n - 1)],
        &format!("{n} {n} 2\n{n} 1\n{n} {n}\n"),
    );
}

#[test]
fn sets_that_are_not_written() {
    let refused = |dimension, rows: &[u32], columns: &[u32], error| {
        let (mut output, mut scratch) = ([b'x'; 70], [BEFORE; 2]);
        let reply = lent::write_requests(dimension, rows, columns, &mut output, &mut scratch);
        assert_eq!(reply, Err(error), "{dimension} {rows:?} {columns:?}");
        assert_eq!((output, scratch), ([b'x'; 70], [BEFORE; 2]));
    };
    // The lowest step decides: 1, 4, 5, 24.
    refused(MAX_DIMENSION + 1, &[9], &[], Error::TooLarge);
    refused((1 << 32) + 2, &[], &[], Error::TooLarge);
    refused(2, &vec![9; MAX_ENTRIES + 1], &[], Error::TooLarge);
    refused(2, &[], &vec![0; MAX_ENTRIES + 1], Error::DimensionMismatch);
    refused(2, &[2], &[], Error::DimensionMismatch);
    refused(2, &[1, 2], &[0, 0], Error::RequestOutOfRange);
    refused(2, &[1, 0], &[0, 1], Error::RequestOutOfRange);
    refused(0, &[0], &[0], Error::RequestOutOfRange);
    refused(2, &[], &[], Error::NoRequests);
    // 7 of the scratch, which is then as it was; 8 cells have 36 pairs.
    let (mut output, mut scratch) = ([b'x'; 99], [BEFORE; 2]);
    let reply = lent::write_requests(8, &[7], &[0], &mut output, &mut scratch[..1]);
    assert_eq!((reply, scratch), (Err(Error::TooShort), [BEFORE; 2]));
    // 7 of the output, which is then as it was, and the scratch 0.
    let bytes = written(8, &[(7, 0)]).unwrap().len();
    let reply = lent::write_requests(8, &[7], &[0], &mut output[..bytes - 1], &mut scratch);
    assert_eq!((reply, scratch), (Err(Error::TooShort), [0; 2]));
    assert!(output.iter().all(|byte| *byte == b'x'));
    let reply = lent::write_requests(8, &[7], &[0], &mut output[..bytes], &mut scratch);
    assert_eq!((reply, output[bytes]), (Ok(bytes), b'x'));
    // No cells need no scratch.
    assert_eq!(lent::write_requests(0, &[], &[], &mut output, &mut []), Ok(57));
}

/// Numbers in no order that matters (xorshift).
fn below(state: &mut u64, bound: usize) -> usize {
    *state ^= *state << 13;
    *state ^= *state >> 7;
    *state ^= *state << 17;
    (*state % bound as u64) as usize
}

#[test]
fn files_there_and_back() {
    let mut state = 1;
    for _ in 0..2000 {
        let n = 1 + below(&mut state, 40);
        let mut pairs = Vec::new();
        for _ in 0..1 + below(&mut state, 60) {
            let row = below(&mut state, n);
            pairs.push((row as u32, below(&mut state, row + 1) as u32));
        }
        let file = written(n, &pairs).unwrap();
        // The set, each pair once, by column then row.
        let mut set = pairs.clone();
        set.sort_by_key(|(row, column)| (*column, *row));
        set.dedup();
        assert_eq!(read(&file), Ok((n, set.clone())));
        // Lists of one set give equal bytes; so does the set that is read back.
        for _ in 0..pairs.len() {
            let (from, to) = (below(&mut state, pairs.len()), below(&mut state, pairs.len()));
            pairs.swap(from, to);
        }
        pairs.push(pairs[0]);
        assert_eq!(written(n, &pairs).unwrap(), file);
        assert_eq!(written(n, &set).unwrap(), file);
        let pattern = SparseSymmetricPattern::from_matrix_market(&file).unwrap();
        assert_eq!(pattern.to_matrix_market().unwrap(), file);
    }
    // A file without entries becomes that of the diagonal cells.
    let pattern = SparseSymmetricPattern::from_matrix_market(&file("%\n2 2 0")).unwrap();
    assert_eq!(pattern.to_matrix_market().unwrap(), file("2 2 2\n1 1\n2 2\n"));
    // A set that is above the diagonal, outside or too large.
    let mut pattern = SparseSymmetricPattern::new(2);
    pattern.pairs.insert((0, 1));
    assert_eq!(pattern.to_matrix_market(), Err(Error::RequestOutOfRange));
    pattern.pairs = [(1 << 32, 0)].into();
    assert_eq!(pattern.to_matrix_market(), Err(Error::RequestOutOfRange));
    pattern.dimension = usize::MAX;
    assert_eq!(pattern.to_matrix_market(), Err(Error::TooLarge));
}
