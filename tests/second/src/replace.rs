//! Replacing one row, how far the change goes [02 §8], and the ledger a series is
//! compared with [01 §4].

use crate::answer::{Answer, CARD, EDIT};
use crate::row::{count_and_room, path_of, read_list, Row, CARD_BOUNDS, CARD_NUMBERS, FIELDS};
use crate::whole::{fed_rows, settle, whole, write_card, Settings};

/// The answer, and how many rows were worked out, 0 on a refusal [02 §8].
#[derive(Clone, Copy, Debug, PartialEq, Eq)]
pub struct Replaced {
    pub answer: Answer,
    pub rows: u64,
}

impl Replaced {
    pub const fn done(rows: u64) -> Replaced {
        Replaced { answer: Answer::DONE, rows }
    }

    pub const fn refused(answer: Answer) -> Replaced {
        Replaced { answer, rows: 0 }
    }
}

/// The list with the new row, its card, and how many of its rows were worked out.
struct Made {
    list: Vec<u64>,
    settings: Vec<Settings>,
    rows: u64,
}

/// Puts the new row in and works out its path as far as the change goes, on any
/// list and card.
pub fn replace(list: &mut [u64], card: &mut [u64], place: u64, row: &[u64]) -> Replaced {
    match settle_path(list, card, place, row) {
        Ok(made) => {
            list.copy_from_slice(&made.list);
            write_card(&made.settings, card);
            Replaced::done(made.rows)
        }
        Err(refusal) => Replaced::refused(refusal),
    }
}

/// Stops at the first feeding row, after the replaced one, whose new card row
/// equals its old one.
fn settle_path(list: &[u64], card: &[u64], place: u64, row: &[u64]) -> Result<Made, Answer> {
    let count = count_and_room(list.len(), card.len())?;
    let list = edited(list, place, row).ok_or(Answer::at(EDIT, 0))?;
    let rows = read_list(&list)?;
    let mut settings = read_card(&card[..CARD_NUMBERS * count], &rows, place)?;
    let mut worked_out = 0;
    for next in path_of(&list, place) {
        let at = next as usize - 1;
        let old = settings[at];
        settings[at] = settle(&rows[at], &fed_rows(&rows, &settings, next))?;
        worked_out += 1;
        if next != place && settings[at] == old {
            break;
        }
    }
    Ok(Made { list, settings, rows: worked_out })
}

/// The list with the new row in its place, or nothing where EDIT applies.
pub fn edited(list: &[u64], place: u64, row: &[u64]) -> Option<Vec<u64>> {
    let row: &[u64; FIELDS] = row.try_into().ok()?;
    let count = (list.len() / FIELDS) as u64;
    if place < 1 || place > count {
        return None;
    }
    let start = (place as usize - 1) * FIELDS;
    if row[0] != place || row[1] != list[start + 1] {
        return None;
    }
    let mut made = list.to_vec();
    made[start..start + FIELDS].copy_from_slice(row);
    Some(made)
}

/// The lent card rows, or CARD at the first one out of bounds. Which rows are
/// secondary is asked of the list as it would be. The replaced row's card row is
/// of the old row, and the new one may be keyed otherwise [02 §1].
fn read_card(card: &[u64], rows: &[Row], replaced: u64) -> Result<Vec<Settings>, Answer> {
    let card = card.as_chunks::<CARD_NUMBERS>().0;
    for (row, numbers) in rows.iter().zip(card) {
        let bounds = if row.row == replaced { CARD_BOUNDS } else { row.card_bounds() };
        if !numbers.iter().zip(bounds).all(|(&value, bound)| bound.holds(value)) {
            return Err(Answer::at(CARD, row.row));
        }
    }
    Ok(card.iter().map(Settings::read).collect())
}

/// The plain ledger: it is fed places and new rows, and holds one list. Beside it
/// stands that list's card, by which it tells how far a change went.
pub struct Ledger {
    list: Vec<u64>,
    card: Vec<u64>,
    rows: u64,
}

impl Ledger {
    /// Starts from an accepted list.
    pub fn new(list: &[u64]) -> Ledger {
        let mut card = vec![0; CARD_NUMBERS * list.len() / FIELDS];
        whole(list, &mut card);
        Ledger { list: list.to_vec(), card, rows: 0 }
    }

    pub fn list(&self) -> &[u64] {
        &self.list
    }

    /// The lent card as the whole calculation of the list leaves it.
    pub fn card_in(&self, lent: &[u64]) -> Vec<u64> {
        [&self.card, &lent[self.card.len()..]].concat()
    }

    /// How many rows the last replacement fed must work out, 0 where it was refused.
    pub fn rows(&self) -> u64 {
        self.rows
    }

    pub fn feed(&mut self, place: u64, row: &[u64]) -> Answer {
        self.rows = 0;
        let Some(made) = edited(&self.list, place, row) else {
            return Answer::at(EDIT, 0);
        };
        let mut card = vec![0; self.card.len()];
        let answer = whole(&made, &mut card);
        if answer == Answer::DONE {
            self.rows = rows_between(&self.card, &card, &path_of(&made, place));
            (self.list, self.card) = (made, card);
        }
        answer
    }
}

/// The rows of the path up to the first feeding row that is the same on both
/// cards, each of a whole calculation: nothing is climbed here [02 §8].
fn rows_between(before: &[u64], after: &[u64], path: &[u64]) -> u64 {
    let card_row = |card: &[u64], row: u64| card.as_chunks::<CARD_NUMBERS>().0[row as usize - 1];
    let mut feeding = path.iter().zip(1..).skip(1);
    let stop = feeding.find(|&(&row, _)| card_row(before, row) == card_row(after, row));
    stop.map_or(path.len() as u64, |(_, rows)| rows)
}
