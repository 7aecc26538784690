//! Matrix Market files for `read_requests`: sound ones, and what is damaged in them.

use crate::matrix_market::HEADER;
use crate::random::Random;
use crate::refusals::{MOST_COLUMNS, MOST_ENTRIES};

/// Bytes that a reader may take for others, or not expect.
const ODD: &[u8] = b" \t\n\n\r%%0123456789+-.,exX#\0\x0b\x0c\x7f\x80\xa0\xff";

/// A file in the plainest form, from numbers in a row for each line.
pub fn plain_file<'a>(lines: impl IntoIterator<Item = &'a [usize]>) -> Vec<u8> {
    let mut text = [HEADER, b"\n"].concat();
    for numbers in lines {
        let fields: Vec<String> = numbers.iter().map(usize::to_string).collect();
        text.extend(fields.join(" ").bytes());
        text.push(b'\n');
    }
    text
}

fn blanks(least: usize, random: &mut Random) -> Vec<u8> {
    let count = least + random.pick(&[0, 0, 0, 1, 2]);
    (0..count).map(|_| random.pick(b"  \t")).collect()
}

/// A line of numbers, with zeros in front of some and blanks where they may stand, or else in the plainest form.
fn line(numbers: &[usize], plain: bool, random: &mut Random) -> Vec<u8> {
    let mut line = if plain { Vec::new() } else { blanks(0, random) };
    for (at, number) in numbers.iter().enumerate() {
        if at > 0 {
            line.extend(if plain { b" ".to_vec() } else { blanks(1, random) });
        }
        let zeros = if plain { 0 } else { random.pick(&[0, 0, 0, 0, 0, 1, 2, 21]) };
        line.extend(std::iter::repeat_n(b'0', zeros));
        line.extend(number.to_string().bytes());
    }
    line.extend(if plain { Vec::new() } else { blanks(0, random) });
    line
}

fn comment(random: &mut Random) -> Vec<u8> {
    let count = random.below(12);
    let rest = (0..count).map(|_| random.pick(ODD)).filter(|&byte| byte != b'\n');
    std::iter::once(b'%').chain(rest).collect()
}

/// A file of size n with a few entries, accepted where n is within its bound.
pub fn sound_file(n: usize, random: &mut Random) -> Vec<u8> {
    let plain = random.chance(40);
    let most = random.pick(&[1, 4, 8, 8, 8, 60]);
    let count = if n == 0 { 0 } else { random.below(most) };
    let mut lines = vec![HEADER.to_vec()];
    for _ in 0..random.pick(&[0, 0, 1, 1, 3]) {
        lines.push(comment(random));
    }
    lines.push(line(&[n, n, count], plain, random));
    for _ in 0..count {
        let row = if random.chance(20) { n } else { 1 + random.below(n) };
        let column = if random.chance(20) { row } else { 1 + random.below(row) };
        lines.push(line(&[row, column], plain, random));
    }
    for _ in 0..random.pick(&[0, 0, 0, 1, 2, 5]) {
        let at = 1 + random.below(lines.len());
        lines.insert(at, blanks(0, random));
    }
    let mut text = lines.join(&b'\n');
    if random.chance(60) {
        text.push(b'\n');
    }
    text
}

/// Damages a file somewhere; what was damaged before may be damaged again.
pub fn damage(text: &mut Vec<u8>, random: &mut Random) {
    match random.below(20) {
        0 => damage_header(text, random),
        1..=5 => damage_bytes(text, random),
        6..=10 => edit_lines(text, |lines| damage_lines(lines, random)),
        11..=13 => edit_lines(text, |lines| damage_sizes(lines, random)),
        _ => damage_number(text, random),
    }
}

fn edit_lines(text: &mut Vec<u8>, change: impl FnOnce(&mut Vec<Vec<u8>>)) {
    let mut lines: Vec<Vec<u8>> = text.split(|&byte| byte == b'\n').map(<[u8]>::to_vec).collect();
    change(&mut lines);
    *text = lines.join(&b'\n');
}

fn damage_header(text: &mut Vec<u8>, random: &mut Random) {
    let end = HEADER.len().min(text.len());
    match random.below(8) {
        0 => text.insert(end, random.pick(b" \t\r%")),
        1 => text.insert(0, random.pick(b"\n \t%\xef")),
        2 => drop(text.splice(..end, HEADER.to_ascii_lowercase())),
        3 => drop(text.splice(..end, b"%%MatrixMarket matrix coordinate real symmetric".iter().copied())),
        4 => drop(text.splice(..end, b"%%MatrixMarket matrix coordinate pattern general".iter().copied())),
        5 => text.truncate(random.below(end + 1)),
        6 => drop(text.drain(..random.below(end + 1))),
        _ => text.iter_mut().take(random.below(end + 1)).for_each(|byte| *byte = byte.to_ascii_uppercase()),
    }
}

/// A place in a list of so many bytes, its end among them; mostly past the header.
fn place(length: usize, random: &mut Random) -> usize {
    let from = if random.chance(94) { length.min(HEADER.len() + 1) } else { 0 };
    from + random.below(length - from + 1)
}

fn damage_bytes(text: &mut Vec<u8>, random: &mut Random) {
    let (a, b) = (place(text.len(), random), place(text.len(), random));
    let (start, end) = (a.min(b), a.max(b));
    match random.below(9) {
        0 => text.truncate(a),
        1 => drop(text.drain(start..end)),
        2 => {
            let part = text[start..end].to_vec();
            drop(text.splice(end..end, part));
        }
        3 => text.insert(a, random.pick(ODD)),
        4 => text.insert(a, random.bits() as u8),
        5 if a < text.len() => drop(text.remove(a)),
        6 if a < text.len() => text[a] ^= 1 << random.below(8),
        7 if start < end && end < text.len() => text.swap(start, end),
        _ if a < text.len() => text[a] = random.pick(ODD),
        _ => text.push(random.pick(ODD)),
    }
}

/// Lines moved, dropped, doubled, joined, parted or put in. There is at least one line.
fn damage_lines(lines: &mut Vec<Vec<u8>>, random: &mut Random) {
    let first = usize::from(lines.len() > 1 && random.chance(96));
    let at = first + random.below(lines.len() - first);
    match random.below(13) {
        0 => drop(lines.remove(at)),
        1 => lines.insert(at, lines[at].clone()),
        2 => {
            let other = first + random.below(lines.len() - first);
            lines.swap(at, other);
        }
        3 => lines.insert(at, comment(random)),
        4 => lines.insert(at, [b" ".to_vec(), comment(random)].concat()),
        5 => lines.insert(at, random.pick(&[&b"\r"[..], b"\x0c", b"\0", b"", b" \t", b"1 1", b"0 1", b"1"]).to_vec()),
        6 => lines[at].push(b'\r'),
        7 => lines.iter_mut().skip(first).for_each(|line| line.push(b'\r')),
        8 => lines[at].iter_mut().filter(|byte| **byte == b' ').for_each(|byte| *byte = b'\t'),
        9 if at + 1 < lines.len() => {
            let next = lines.remove(at + 1);
            lines[at].push(b' ');
            lines[at].extend(next);
        }
        10 => {
            if let Some(blank) = lines[at].iter().position(|&byte| byte == b' ') {
                lines[at][blank] = b'\n';
            }
        }
        _ => {
            // an entry's row and column exchanged
            let mut fields: Vec<&[u8]> = lines[at].split(|&byte| byte == b' ').collect();
            fields.reverse();
            lines[at] = fields.join(&b' ');
        }
    }
}

/// A size line in place of the first that is none of header, comments and blank lines.
fn damage_sizes(lines: &mut [Vec<u8>], random: &mut Random) {
    let blank = |line: &[u8]| line.iter().all(|byte| b" \t".contains(byte));
    let Some(at) = (1..lines.len()).find(|&at| !blank(&lines[at]) && !lines[at].starts_with(b"%")) else {
        return;
    };
    let count = lines[at + 1..].iter().filter(|line| !blank(line)).count();
    let written = |digits: &[u8]| std::str::from_utf8(digits).ok().and_then(|digits| digits.parse::<usize>().ok());
    let size = lines[at].split(|byte| b" \t".contains(byte)).find_map(written).unwrap_or(0);
    let size = match random.below(12) {
        0 => MOST_COLUMNS - 1,
        1..=3 => MOST_COLUMNS,
        4 => MOST_COLUMNS + 1,
        5 => 0,
        6 => size.saturating_sub(1),
        7 => size.wrapping_add(1 << 32),
        _ => size,
    };
    let other = if random.chance(90) { size } else { size.wrapping_add(random.pick(&[1, usize::MAX, 1 << 32])) };
    let count = match random.below(12) {
        0 => count + 1,
        1 => count.saturating_sub(1),
        2 => MOST_ENTRIES,
        3 => MOST_ENTRIES + 1,
        4 => count + (1 << 32),
        _ => count,
    };
    let plain = random.chance(50);
    lines[at] = line(&[size, other, count], plain, random);
}

/// Another number in the place of one past the header.
fn damage_number(text: &mut Vec<u8>, random: &mut Random) {
    let digit = |at: usize| text.get(at).is_some_and(u8::is_ascii_digit);
    let starts: Vec<usize> =
        (HEADER.len()..text.len()).filter(|&at| digit(at) && !at.checked_sub(1).is_some_and(digit)).collect();
    if starts.is_empty() {
        return text.push(b'1');
    }
    let start = random.pick(&starts);
    let end = (start..text.len()).find(|&at| !digit(at)).unwrap_or(text.len());
    let digits = text[start..end].to_vec();
    let value = digits.iter().fold(0u128, |value, byte| value.saturating_mul(10).saturating_add((byte - b'0') as u128));
    let more = |more: u128| value.saturating_add(more).to_string().into_bytes();
    let number = match random.below(18) {
        0 => b"0".to_vec(),
        1 => b"00".to_vec(),
        2 | 3 => value.saturating_sub(1).to_string().into_bytes(),
        4 | 5 => more(1),
        6 => more(1 << 32),
        7 => more(1 << 64),
        8 => MOST_COLUMNS.to_string().into_bytes(),
        9 => (MOST_COLUMNS + 1).to_string().into_bytes(),
        10 => [b"+".to_vec(), digits].concat(),
        11 => [b"-".to_vec(), digits].concat(),
        12 => [digits, b".0".to_vec()].concat(),
        13 => [digits.clone(), b" ".to_vec(), digits].concat(),
        14 => Vec::new(),
        15 => [vec![b'0'; 1 + random.below(400)], digits].concat(),
        16 => [digits, vec![random.pick(b"0123456789"); 1 + random.below(400)]].concat(),
        _ => random.below(13).to_string().into_bytes(),
    };
    drop(text.splice(start..end, number));
}
