//! The text of a list and of its card [01 §6].

use crate::answer::{Answer, ROOM, TEXT};
use crate::row::{BOUNDS, CARD_BOUNDS, CARD_NUMBERS, FIELDS};
use crate::whole::whole;

pub const MOST_BYTES: usize = 65_536;
const MOST_DIGITS: usize = 9;
const MOST_NAME: usize = 24;

/// What a text gives, and what is printed of it.
#[derive(Clone, Debug)]
pub struct Printed {
    pub answer: Answer,
    pub bytes: Vec<u8>,
}

impl Printed {
    /// What is given and printed in so many bytes of room: a card that does not
    /// fit is ROOM, a refusal that does not fit is given and not printed.
    pub fn within(self, room: usize) -> Printed {
        if self.bytes.len() <= room {
            return self;
        }
        let room = Answer::at(ROOM, 0);
        let answer = if self.answer == Answer::DONE { room } else { self.answer };
        Printed { answer, bytes: Vec::new() }
    }
}

/// The bytes the program `card` prints for the bytes it reads.
pub fn card(text: &[u8]) -> Vec<u8> {
    printed(text).bytes
}

pub fn printed(text: &[u8]) -> Printed {
    match read(text).and_then(|(names, list)| print_card(&names, &list)) {
        Ok(bytes) => Printed { answer: Answer::DONE, bytes },
        Err(refusal) => Printed { answer: refusal, bytes: print_refusal(refusal) },
    }
}

/// The header: the fields of section 2 with "name" after "row".
pub fn header() -> String {
    let mut columns: Vec<&str> = BOUNDS.iter().map(|bound| bound.column).collect();
    columns.insert(1, "name");
    columns.join(",")
}

fn print_card(names: &[&[u8]], list: &[u64]) -> Result<Vec<u8>, Answer> {
    let mut card = vec![0; CARD_NUMBERS * names.len()];
    let answer = whole(list, &mut card);
    if answer != Answer::DONE {
        return Err(answer);
    }
    let mut printed = b"name".to_vec();
    for bound in &CARD_BOUNDS {
        printed.extend_from_slice(format!(",{}", bound.column).as_bytes());
    }
    for (name, numbers) in names.iter().zip(card.chunks_exact(CARD_NUMBERS)) {
        printed.extend_from_slice(b"\r\n");
        printed.extend_from_slice(name);
        for number in numbers {
            printed.extend_from_slice(format!(",{number}").as_bytes());
        }
    }
    printed.extend_from_slice(b"\r\n");
    Ok(printed)
}

pub(crate) fn print_refusal(refusal: Answer) -> Vec<u8> {
    let Answer { number, place, field } = refusal;
    format!("refused,place,field\r\n{number},{place},{field}\r\n").into_bytes()
}

/// Names and list of a well-formed text, however many its rows; otherwise TEXT.
fn read(text: &[u8]) -> Result<(Vec<&[u8]>, Vec<u64>), Answer> {
    let rows = read_lines(text, &header(), read_row)?;
    let (names, numbers): (Vec<&[u8]>, Vec<[u64; FIELDS]>) = rows.into_iter().unzip();
    Ok((names, numbers.concat()))
}

/// What each line after the header holds, however many there are; TEXT where the
/// text is too long, or else at the first line that is bad.
pub(crate) fn read_lines<'a, T>(
    text: &'a [u8],
    header: &str,
    read_line: fn(&'a [u8]) -> Option<T>,
) -> Result<Vec<T>, Answer> {
    if text.len() > MOST_BYTES {
        return Err(Answer::at(TEXT, 0));
    }
    let lines = lines(text);
    if lines[0] != header.as_bytes() {
        return Err(Answer::at(TEXT, 1));
    }
    let read = |(line, bytes)| read_line(bytes).ok_or(Answer::at(TEXT, line));
    (2..).zip(lines.into_iter().skip(1)).map(read).collect()
}

/// Lines end at CRLF; the last one may lack it. An empty text has one empty line.
fn lines(text: &[u8]) -> Vec<&[u8]> {
    let mut lines = Vec::new();
    let mut rest = text;
    while let Some(end) = rest.windows(2).position(|pair| pair == b"\r\n") {
        lines.push(&rest[..end]);
        rest = &rest[end + 2..];
    }
    if !rest.is_empty() || lines.is_empty() {
        lines.push(rest);
    }
    lines
}

/// Name and numbers of one line, or nothing if the line is bad.
fn read_row(line: &[u8]) -> Option<(&[u8], [u64; FIELDS])> {
    let first_comma = line.iter().position(|&byte| byte == b',')?;
    let (place, rest) = (&line[..first_comma], &line[first_comma + 1..]);
    let length = name_length(rest)?;
    let (name, rest) = rest.split_at(length);
    let others = cells(rest.strip_prefix(b",")?);
    Some((name, numbers(std::iter::once(place).chain(others))?))
}

/// What stands between commas.
pub(crate) fn cells(line: &[u8]) -> impl Iterator<Item = &[u8]> {
    line.split(|&byte| byte == b',')
}

/// So many numbers, or nothing where a cell holds none or there are more or fewer.
pub(crate) fn numbers<'a, const N: usize>(
    cells: impl Iterator<Item = &'a [u8]>,
) -> Option<[u64; N]> {
    let numbers: Option<Vec<u64>> = cells.map(number).collect();
    numbers?.try_into().ok()
}

/// Length, as it stands, of the name that `rest` begins with.
fn name_length(rest: &[u8]) -> Option<usize> {
    let length = if rest.first() == Some(&b'"') {
        quoted_length(rest)?
    } else {
        rest.iter().position(|&byte| byte == b',' || !is_plain(byte))?
    };
    (1..=MOST_NAME).contains(&length).then_some(length)
}

/// From the opening quote to the first quote that is not doubled.
fn quoted_length(rest: &[u8]) -> Option<usize> {
    let mut at = 1;
    loop {
        match (rest.get(at)?, rest.get(at + 1)) {
            (b'"', Some(b'"')) => at += 2,
            (b'"', _) => return Some(at + 1),
            (&byte, _) if byte == b',' || is_plain(byte) => at += 1,
            _ => return None,
        }
    }
}

/// Bytes 32 to 126 but no quote or comma.
fn is_plain(byte: u8) -> bool {
    (32..=126).contains(&byte) && byte != b'"' && byte != b','
}

/// One to nine digits, no leading zero but 0 itself.
fn number(digits: &[u8]) -> Option<u64> {
    let sized = (1..=MOST_DIGITS).contains(&digits.len());
    let leading_zero = digits.len() > 1 && digits[0] == b'0';
    if !sized || leading_zero || !digits.iter().all(u8::is_ascii_digit) {
        return None;
    }
    std::str::from_utf8(digits).ok()?.parse().ok()
}
