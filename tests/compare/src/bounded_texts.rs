//! Texts on each side of the bounds of section 6, with the answer that the
//! documents give each, in ample room, in exact room and a byte short.

use crate::boundary::CARD_ROOM;
use crate::run::{Found, Seen};
use crate::texts::{ample, same};
use second::answer::*;
use second::generate::{list_shaped, sized_text, text, Shape};
use second::row::{field, FIELDS, MOST_ROWS};
use second::text::{card, header, MOST_BYTES};

/// The list of section 6.
const LIST: &str = include_str!("../../../examples/lists/two-feeders.csv");

const OK: Answer = Answer::DONE;
const BAD_ROW: Answer = bad(2);
const TOO_LONG: Answer = bad(0);
const NO_COUNT: Answer = Answer::at(COUNT, 0);

const fn bad(line: u64) -> Answer {
    Answer::at(TEXT, line)
}

/// What a text is, its bytes, and the answer it must get.
type Case = (String, Vec<u8>, Answer);

pub fn compare(_: u64, seed: u64, seen: &mut Seen) -> Found {
    let cases = [sizes(), row_counts(seed), line_ends(), names(), numbers()].concat();
    for (what, text, wanted) in cases {
        let given = same(&text, CARD_ROOM, seen)?;
        if given != wanted {
            return Err(format!("{what}: {given:?}, not {wanted:?}"));
        }
        let print = card(&text).len();
        same(&text, print - 1, seen)?;
        same(&text, print, seen)?;
    }
    Ok(())
}

/// The list with another cell in that column of row 1.
fn with_cell(column: usize, cell: &[u8]) -> Vec<u8> {
    with_cells(&[(1, column, cell)])
}

/// Row, column and what stands there. The name takes the place of field 1, so
/// that columns count as fields do.
pub type Cell<'a> = (usize, usize, &'a [u8]);

/// The list with other cells.
pub fn with_cells(changes: &[Cell]) -> Vec<u8> {
    let cells = |line: &'static str| line.as_bytes().split(|&byte| byte == b',').collect();
    let mut lines: Vec<Vec<&[u8]>> = LIST.split("\r\n").map(cells).collect();
    for &(row, column, cell) in changes {
        lines[row][column] = cell;
    }
    let lines: Vec<Vec<u8>> = lines.iter().map(|cells| cells.join(&b',')).collect();
    lines.join(&b"\r\n"[..])
}

fn after_header(rest: &[u8]) -> Vec<u8> {
    [header().as_bytes(), b"\r\n", rest].concat()
}

/// The beginning and the byte over and over, up to so many bytes.
fn filled(mut text: Vec<u8>, byte: u8, bytes: usize) -> Vec<u8> {
    text.resize(bytes, byte);
    text
}

fn sizes() -> Vec<Case> {
    let mut cases = vec![
        ("no bytes".to_string(), vec![], bad(1)),
        ("most bytes, rows".to_string(), sized_text(MOST_BYTES), NO_COUNT),
        ("a byte more, rows".to_string(), sized_text(MOST_BYTES + 1), TOO_LONG),
    ];
    for (what, start, line) in [
        ("one open quote", after_header(b"1,\""), 2),
        ("quotes only", after_header(b"1,"), 2),
        ("quotes from the first byte", vec![], 1),
    ] {
        for byte in [b'"', b'a', b','] {
            let sized = |bytes| filled(start.clone(), byte, bytes);
            let what = |bytes| format!("{what}, {bytes} bytes of {byte}");
            cases.push((what(MOST_BYTES), sized(MOST_BYTES), bad(line)));
            cases.push((what(MOST_BYTES + 1), sized(MOST_BYTES + 1), TOO_LONG));
        }
    }
    let ended = |bytes: usize| [&sized_text(bytes - 2), &b"\r\n"[..]].concat();
    cases.push(("most bytes, last CRLF".to_string(), ended(MOST_BYTES), NO_COUNT));
    cases.push(("a byte more, last CRLF".to_string(), ended(MOST_BYTES + 1), TOO_LONG));
    cases
}

fn row_counts(seed: u64) -> Vec<Case> {
    let rows = |count: usize| {
        let row = [1; FIELDS];
        text(&row.repeat(count), seed)
    };
    let most = MOST_ROWS as u64;
    let done = (0..).map(|more| list_shaped(Shape::Star, most, seed ^ more));
    let accepted = done.map(|list| text(&list, seed)).find(|text| is_done(text));
    let bad_after = |count: usize| {
        let text = rows(count);
        let end = if text.ends_with(b"\r\n") { &b"x"[..] } else { &b"\r\nx"[..] };
        ([&text, end].concat(), bad(count as u64 + 2))
    };
    let mut cases = vec![
        ("no rows".to_string(), header().into_bytes(), NO_COUNT),
        ("no rows, CRLF".to_string(), after_header(b""), NO_COUNT),
        ("most rows, accepted".to_string(), accepted.expect("half are"), OK),
        ("most rows".to_string(), rows(MOST_ROWS), Answer::field(1, 4)),
        ("a row more".to_string(), rows(MOST_ROWS + 1), NO_COUNT),
        ("two rows more".to_string(), rows(MOST_ROWS + 2), NO_COUNT),
    ];
    for count in [0, 1, MOST_ROWS - 1, MOST_ROWS, MOST_ROWS + 1, MOST_ROWS + 2, 900] {
        let (text, wanted) = bad_after(count);
        cases.push((format!("a bad line after {count} rows"), text, wanted));
    }
    cases
}

fn is_done(text: &[u8]) -> bool {
    card(text).starts_with(b"name,")
}

fn line_ends() -> Vec<Case> {
    let lines: Vec<&[u8]> = LIST.split("\r\n").map(str::as_bytes).collect();
    let joined =
        |ends: [&[u8]; 3]| [lines[0], ends[0], lines[1], ends[1], lines[2], ends[2]].concat();
    const CRLF: &[u8] = b"\r\n";
    let mut cases = vec![
        ("as it stands".to_string(), joined([CRLF, CRLF, CRLF]), OK),
        ("no last CRLF".to_string(), joined([CRLF, CRLF, b""]), OK),
        ("empty first line".to_string(), [CRLF, LIST.as_bytes()].concat(), bad(1)),
        ("only CRLF".to_string(), CRLF.to_vec(), bad(1)),
        ("LF alone everywhere".to_string(), joined([b"\n"; 3]), bad(1)),
        ("CR alone everywhere".to_string(), joined([b"\r"; 3]), bad(1)),
    ];
    // Each bad end is found in the line it should have ended, an empty line in its own.
    for (end, later) in
        [(&b"\n"[..], 0), (b"\r", 0), (b"\n\r", 0), (b"\r\r\n", 0), (b" \r\n", 0), (b"\r\n\r\n", 1)]
    {
        for place in 0..3 {
            let mut ends = [CRLF; 3];
            ends[place] = end;
            let wanted = bad(place as u64 + 1 + later);
            cases.push((format!("{end:?} at the end of line {}", place + 1), joined(ends), wanted));
        }
    }
    cases
}

const GOOD_NAMES: [&[u8]; 12] = [
    b"F",
    b" ",
    b"~",
    b"'",
    b"\"~\"",
    b"\"\"",
    b"\"a,b\"",
    b"\",\"",
    b"\"a\"\"b\"",
    b"\"\"\"\"",
    b"\"\"\"a\"",
    b"\"\"\",\"\"\"",
];

const BAD_NAMES: [&[u8]; 17] = [
    b"",
    b"\"",
    b"\"\"\"",
    b"a\"",
    b"a\"b",
    b"\"a\"b",
    b"a,b",
    b"\t",
    b"\x1f",
    b"\x7f",
    b"\"\x7f\"",
    b"\"\x1f\"",
    b"\x80",
    b"\xff",
    b"\"a\r\nb\"",
    b"\"a\nb\"",
    b"\"a\"\"",
];

fn names() -> Vec<Case> {
    let sized = |bytes: usize| {
        let quoted = [b"\"", &b"q".repeat(bytes - 2)[..], b"\""].concat();
        [b"F".repeat(bytes), b"\"".repeat(bytes), quoted]
    };
    let case = |name: &[u8], wanted| {
        (format!("name {:?}", String::from_utf8_lossy(name)), with_cell(1, name), wanted)
    };
    let good = GOOD_NAMES.map(<[u8]>::to_vec).into_iter().chain(sized(24));
    let bad = BAD_NAMES.map(<[u8]>::to_vec).into_iter().chain(sized(25)).chain(sized(26));
    good.map(|name| case(&name, OK)).chain(bad.map(|name| case(&name, BAD_ROW))).collect()
}

/// Every column but the name's, with numbers that are none and numbers of nine digits.
fn numbers() -> Vec<Case> {
    const BAD: [&[u8]; 16] = [
        b"",
        b"00",
        b"01",
        b"000000001",
        b"0000000001",
        b"1000000000",
        b"9999999999",
        b"+1",
        b"-1",
        b" 1",
        b"1 ",
        b"1.0",
        b"1e3",
        b"\"1\"",
        b"0x1",
        b"18446744073709551617",
    ];
    let columns = || (0..=FIELDS).filter(|&column| column != 1);
    let bad = columns().flat_map(|column| BAD.iter().map(move |&cell| (column, cell, BAD_ROW)));
    let nine = columns().map(|column| {
        // With any rated primary the list's high is too much for a secondary one.
        let field = if column == field::RATED_PRIMARY { field::HIGH } else { column.max(1) };
        (column, &b"999999999"[..], Answer::field(1, field as u64))
    });
    let zeros = [18, 19, 20, 21].map(|column| (column, &b"0"[..], OK));
    let fits = [(10, &b"100000000"[..], OK), (21, b"2", OK), (22, b"100000000", OK)];
    bad.chain(nine)
        .chain(zeros.into_iter().chain(fits))
        .map(|(column, cell, wanted)| {
            let what = format!("{:?} in column {column}", String::from_utf8_lossy(cell));
            (what, with_cell(column, cell), wanted)
        })
        .collect()
}

/// The column by the count: every byte alone, before a digit, after one, and in quotes.
pub fn every_byte(count: u64, seed: u64, seen: &mut Seen) -> Found {
    let column = count as usize % (FIELDS + 1);
    for byte in 0..=u8::MAX {
        for cell in [vec![byte], vec![byte, b'1'], vec![b'1', byte], vec![b'"', byte, b'"']] {
            ample(&with_cell(column, &cell), seed, seen)?;
        }
    }
    Ok(())
}
