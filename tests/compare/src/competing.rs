//! Faults two at a time, where section 4's order decides, RANGE, OWN ZONE and
//! BACKUP standing where PICKUP stood [02 §2], CURVE before DELAY [02 §3]: one is put
//! into an accepted list or a replacement that is done, then another that leaves the
//! first in it.

use crate::answers::{name_of, NAMING};
use crate::faults::{add_fault, open_to};
use crate::run::{Found, Group, Item, Kind, Seen};
use crate::{changes, lists};
use second::answer::*;
use second::generate::{Change, Lent, Replacement, Rng};
use second::row::{path_of, CARD_NUMBERS, FIELDS};

/// The order for a replacement, stage by stage; for a whole calculation it is
/// the same without EDIT and CARD. Each stage goes over the rows ascending; the
/// numbers of the last one are tried in each row in their order.
const ORDER: [&[u64]; 7] = [
    &[COUNT],
    &[ROOM],
    &[EDIT],
    &[FIELD],
    &[TREE],
    &[CARD],
    &[RANGE, OWN_ZONE, BACKUP, CURVE, DELAY],
];

const ALONG_THE_PATH: &[u64] = ORDER[ORDER.len() - 1];

/// Given at no row, so that none of them competes with itself.
const OF_NO_ROW: [u64; 3] = [COUNT, ROOM, EDIT];

/// Given by replacements only.
const NOT_OF_LISTS: [u64; 2] = [EDIT, CARD];

/// The number given, over the one that would be given without the added fault;
/// of one stage, in an earlier row over a later one.
const LIST_PAIRS: Group = Group {
    name: "competing refusals of lists",
    wanted: || {
        let of_lists = |&(over, under): &Item| of_lists(&[over, under]).len() == 2;
        pairs().into_iter().filter(of_lists).collect()
    },
    label,
};

const REPLACEMENT_PAIRS: Group =
    Group { name: "competing refusals of replacements", wanted: pairs, label };

/// Of one stage, in one row.
const LIST_PAIRS_IN_ROW: Group =
    Group { name: "competing refusals in a row of a list", wanted: pairs_in_row, label };

const REPLACEMENT_PAIRS_IN_ROW: Group =
    Group { name: "competing refusals in a row of a replacement", wanted: pairs_in_row, label };

/// Of different rows, and of one.
pub const OF_LISTS: [Group; 2] = [LIST_PAIRS, LIST_PAIRS_IN_ROW];
pub const OF_REPLACEMENTS: [Group; 2] = [REPLACEMENT_PAIRS, REPLACEMENT_PAIRS_IN_ROW];

pub const LISTS: Kind = Kind { name: "lists at fault twice", cases: 4_000, case: list_twice };

pub const REPLACEMENTS: Kind =
    Kind { name: "replacements at fault twice", cases: 10_000, case: replacement_twice };

fn label(item: Item) -> String {
    format!("{} over {}", name_of(item.0), name_of(item.1))
}

fn pairs() -> Vec<Item> {
    let over = |&under: &u64| rivals(under).into_iter().map(move |over| (over, under));
    ORDER.concat().iter().flat_map(over).collect()
}

/// Of a stage's numbers each over those after it; and a number over itself where
/// it names something in the row.
fn pairs_in_row() -> Vec<Item> {
    let after = |stage: &[u64]| {
        let over = |at: usize| stage[at + 1..].iter().map(move |&under| (stage[at], under));
        (0..stage.len()).flat_map(over).collect::<Vec<Item>>()
    };
    ORDER.into_iter().flat_map(after).chain(NAMING.map(|number| (number, number))).collect()
}

/// The faults that may be given over one of that number: those of the stages up
/// to its own.
fn rivals(number: u64) -> Vec<u64> {
    let last = ORDER.iter().position(|stage| stage.contains(&number)).expect("in the order");
    let mut rivals = ORDER[..=last].concat();
    rivals.retain(|&rival| rival != number || !OF_NO_ROW.contains(&rival));
    rivals
}

/// Another answer than before was given over it.
fn note([pairs, in_row]: [Group; 2], before: Answer, after: Answer, seen: &mut Seen) {
    let stage = |answer: Answer| ORDER.iter().position(|stage| stage.contains(&answer.number));
    let is_in_row = stage(after) == stage(before) && after.place == before.place;
    if after != before {
        let group = if is_in_row { in_row } else { pairs };
        seen.note(&group, (after.number, before.number));
    }
}

fn list_twice(_: u64, seed: u64, seen: &mut Seen) -> Found {
    let mut rng = Rng::new(seed);
    let (list, _, card) = changes::accepted(rng.any());
    let rows: Vec<u64> = (1..=(list.len() / FIELDS) as u64).collect();
    let mut lent = Lent { list, card };
    let first = rng.pick(&of_lists(&ORDER[1..].concat()));
    let Some(row) = up_to(&mut rng, &open_to(first, &rows, &lent), Answer::DONE) else {
        return Ok(());
    };
    add_fault(&mut rng, first, row, &mut lent);
    let before = lists::same(&lent, seen)?;
    for number in of_lists(&rivals(before.number)) {
        let mut worse = lent.clone();
        if let Some(row) = up_to(&mut rng, &open_to(number, &rows, &lent), before) {
            add_fault(&mut rng, number, row, &mut worse);
            note(OF_LISTS, before, lists::same(&worse, seen)?, seen);
        }
    }
    Ok(())
}

fn of_lists(numbers: &[u64]) -> Vec<u64> {
    numbers.iter().copied().filter(|number| !NOT_OF_LISTS.contains(number)).collect()
}

/// One of the rows up to the one that the answer names, if it names one, and that
/// one as often as not; nothing where there is none.
fn up_to(rng: &mut Rng, rows: &[u64], before: Answer) -> Option<u64> {
    let is_up_to = |row: &u64| before.place == 0 || *row <= before.place;
    let rows: Vec<u64> = rows.iter().copied().filter(is_up_to).collect();
    if rows.contains(&before.place) && rng.chance(50) {
        return Some(before.place);
    }
    (!rows.is_empty()).then(|| rng.pick(&rows))
}

/// A replacement by the list that it would make, and the row that it replaces.
#[derive(Clone)]
struct Made {
    lent: Lent,
    place: u64,
    old: Vec<u64>,
    /// What EDIT applies to.
    wrong: Option<WrongEdit>,
}

#[derive(Clone, Copy)]
enum WrongEdit {
    Place(u64),
    Row,
    FeedsFrom,
    Length,
}

impl Made {
    fn add_fault(&mut self, rng: &mut Rng, number: u64, row: u64) {
        if number != EDIT {
            return add_fault(rng, number, row, &mut self.lent);
        }
        let past = WrongEdit::Place((self.lent.list.len() / FIELDS) as u64 + 1);
        let at_0 = WrongEdit::Place(0);
        let wrong = [at_0, past, WrongEdit::Row, WrongEdit::FeedsFrom, WrongEdit::Length];
        self.wrong = Some(rng.pick(&wrong));
    }

    /// The list with the old row, fed as the new one is, and the new row beside it.
    fn lend(&self) -> Replacement {
        let Lent { mut list, card } = self.lent.clone();
        let start = (self.place as usize - 1) * FIELDS;
        let place = &mut list[start..start + FIELDS];
        let mut change = Change { place: self.place, row: place.to_vec() };
        place.copy_from_slice(&self.old);
        place[1] = change.row[1];
        match self.wrong {
            Some(WrongEdit::Place(other)) => change.place = other,
            Some(WrongEdit::Row) => change.row[0] += 1,
            Some(WrongEdit::FeedsFrom) => change.row[1] += 1,
            Some(WrongEdit::Length) => change.row.push(0),
            None => {}
        }
        Replacement { list, card, change }
    }
}

fn replacement_twice(_: u64, seed: u64, seen: &mut Seen) -> Found {
    let mut rng = Rng::new(seed);
    let (list, _, mut card) = changes::accepted(rng.any());
    let rows: Vec<u64> = (1..=(list.len() / FIELDS) as u64).collect();
    let place = rng.pick(&rows);
    let path = path_of(&list, place);
    unsettle(&mut card, &path);
    let old = list[(place as usize - 1) * FIELDS..][..FIELDS].to_vec();
    let mut made = Made { lent: Lent { list, card }, place, old, wrong: None };
    let reached = |number, made: &Made| {
        let rows = if ALONG_THE_PATH.contains(&number) { &path } else { &rows };
        open_to(number, rows, &made.lent)
    };
    let first = rng.pick(&ORDER[1..].concat());
    let Some(row) = up_to(&mut rng, &reached(first, &made), Answer::DONE) else {
        return Ok(());
    };
    made.add_fault(&mut rng, first, row);
    let before = changes::same(&made.lend(), seen)?;
    for number in rivals(before.number) {
        let mut worse = made.clone();
        if let Some(row) = up_to(&mut rng, &reached(number, &made), before) {
            worse.add_fault(&mut rng, number, row);
            note(OF_REPLACEMENTS, before, changes::same(&worse.lend(), seen)?, seen);
        }
    }
    Ok(())
}

/// Lends other cutoffs along the path, which no other row heeds, so that no row
/// stops the climb before it comes to a fault [02 §8].
fn unsettle(card: &mut [u64], path: &[u64]) {
    for &row in path {
        let cutoff = &mut card[(row as usize - 1) * CARD_NUMBERS + 2];
        *cutoff = cutoff.checked_sub(1).unwrap_or(1);
    }
}
