//! Answers in their three numbers [01 §4, 02 §2, §3, §11], and the rows that a replacement
//! worked out [02 §8]: what they are called, when two agree, and which must turn up.

use crate::boundary;
use crate::run::{Item, Score};
use second::answer::*;
use second::curve::{B, C, DEFINITE};
use second::differential::{BLOCKED, HOLD, TRIP};
use second::replace::Replaced;
use second::row::{Row, CARD_NUMBERS, FIELDS, MOST_ROWS};
use second::text::MOST_BYTES;

/// Every number but 0; 6 is retired, and 15 is not given yet.
const REFUSALS: [(u64, &str); 15] = [
    (TEXT, "TEXT"),
    (COUNT, "COUNT"),
    (ROOM, "ROOM"),
    (FIELD, "FIELD"),
    (TREE, "TREE"),
    (DELAY, "DELAY"),
    (STUDY, "STUDY"),
    (CARD, "CARD"),
    (EDIT, "EDIT"),
    (RANGE, "RANGE"),
    (OWN_ZONE, "OWN ZONE"),
    (BACKUP, "BACKUP"),
    (CURVE, "CURVE"),
    (INPUT, "INPUT"),
    (SLOPE, "SLOPE"),
];

pub const VERDICTS: [(u64, &str); 3] = [(TRIP, "TRIP"), (HOLD, "HOLD"), (BLOCKED, "BLOCKED")];

pub const LAW_NAMES: [(u64, &str); 3] = [(DEFINITE, "DEFINITE"), (B, "B"), (C, "C")];

/// The sizes of the header, those that grow first.
const SIZES: [(u64, &str); 5] = [
    (CARD_NUMBERS as u64, "COLUMNS"),
    (FIELDS as u64, "FIELDS"),
    (MOST_ROWS as u64, "ROWS"),
    (boundary::CARD_ROOM as u64, "PRINTED"),
    (MOST_BYTES as u64, "TEXT"),
];

/// The numbers whose third number names something.
pub const NAMING: [u64; 2] = [FIELD, BACKUP];

pub fn name_of(number: u64) -> &'static str {
    REFUSALS.iter().find(|refusal| refusal.0 == number).map_or("done", |refusal| refusal.1)
}

/// Whether an answer of the library is the one expected, in all three numbers,
/// the third one not 0 exactly where it names something.
pub fn agree(given: Answer, expected: Answer) -> bool {
    given == expected && (given.field != 0) == NAMING.contains(&given.number)
}

/// As `agree`, and in the rows worked out, which are not 0 exactly where it is done.
pub fn agree_in_rows(given: Replaced, expected: Replaced) -> bool {
    agree(given.answer, expected.answer)
        && given.rows == expected.rows
        && (given.rows != 0) == (given.answer == Answer::DONE)
}

/// The answer by its number; BACKUP with 1 where an earlier row is fed there too.
pub fn item_of(list: &[u64], answer: Answer) -> Item {
    let is_earlier = |row: Row| row.feeds_from == answer.place && row.row < answer.field;
    let later = answer.number == BACKUP && list.as_chunks().0.iter().map(Row::read).any(is_earlier);
    (answer.number, u64::from(later))
}

/// What must turn up where these numbers are given back.
pub fn items_of(numbers: &[u64]) -> Vec<Item> {
    let later = numbers.contains(&BACKUP).then_some((BACKUP, 1));
    numbers.iter().map(|&number| (number, 0)).chain(later).collect()
}

pub fn label(item: Item) -> String {
    format!("{}{}", name_of(item.0), ["", " of a later fed row"][item.1 as usize])
}

/// The header has the same names and numbers, of refusals, verdicts, laws and sizes.
pub fn check_header(score: &mut Score) {
    let (verdicts, laws) = (("VERDICT_", &VERDICTS[..]), ("LAW_", &LAW_NAMES[..]));
    for (start, ours) in [("REFUSED_", &REFUSALS[..]), verdicts, laws, ("SIZE_", &SIZES)] {
        let header = boundary::defined(start);
        let named = header.iter().map(|(name, number)| (*number, name.replace('_', " ")));
        let mut named: Vec<_> = named.collect();
        named.sort();
        let same =
            named.iter().map(|(number, name)| (*number, name.as_str())).eq(ours.iter().copied());
        score.count(same, &format!("the header's {start}: {named:?}"));
    }
}
