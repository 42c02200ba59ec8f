//! Replacements, one by one and in series beside the ledger [01 §4, 02 §1, §2, §3, §8].

use crate::answers::{agree_in_rows, item_of, items_of, label};
use crate::climbs::Climb;
use crate::lists::{row_count, ACCEPTED_ROWS};
use crate::run::{Found, Group, Kind, Score, Seen};
use crate::{alone, boundary, keyed};
use second::answer::*;
use second::generate::*;
use second::replace::{replace, Ledger, Replaced};
use second::row::{CARD_NUMBERS, FIELDS};
use second::whole::whole;

const NUMBERS: Group = Group {
    name: "numbers given back by replacements",
    wanted: || items_of(&[&[COUNT, ROOM, CARD], OF_SERIES].concat()),
    label,
};

/// Of lists and cards in range, with room.
const OF_SERIES: &[u64] = &[DONE, EDIT, FIELD, TREE, RANGE, OWN_ZONE, BACKUP, CURVE, DELAY];

const IN_SERIES: Group = Group {
    name: "replacements in series beside the ledger",
    wanted: || items_of(OF_SERIES),
    label,
};

/// Of the lists that a series starts from.
const ROWS: Group = Group { name: "rows of lists in series", ..ACCEPTED_ROWS };

/// On cards in range that no calculation of the list gives.
const ON_FOREIGN: Group = Group { name: "replacements on foreign cards", ..IN_SERIES };

pub const GROUPS: [Group; 4] = [NUMBERS, IN_SERIES, ROWS, ON_FOREIGN];

pub const KINDS: [Kind; 4] = [
    Kind { name: "replacements on any list and card", cases: 40_000, case: one },
    Kind { name: "series beside the ledger", cases: 20_000, case: course },
    Kind { name: "long series beside the ledger", cases: 200, case: long_course },
    Kind { name: "series on foreign cards", cases: 5_000, case: foreign_course },
];

/// At least a third of the replacements in series must be refused.
pub fn check_refused(score: &mut Score, seen: &Seen) {
    let times = |item| seen.times(&IN_SERIES, item);
    let done = times((DONE, 0));
    let refused = items_of(OF_SERIES).into_iter().map(times).sum::<u64>() - done;
    score.count(done <= 2 * refused, &format!("{refused} of {} in series refused", done + refused));
}

/// Any list with any card, the card's own numbers read off the path.
fn one(_: u64, seed: u64, seen: &mut Seen) -> Found {
    same(&replacement(seed), seen).map(|_| ())
}

/// Both programs on the same list, card and change. They must agree in number,
/// place, field, rows worked out and every number of list and card.
pub fn same(lent: &Replacement, seen: &mut Seen) -> Result<Answer, String> {
    let Change { place, row } = &lent.change;
    let (mut list, mut card) = (lent.list.clone(), lent.card.clone());
    let (mut list2, mut card2) = (lent.list.clone(), lent.card.clone());
    let given = boundary::replace(&mut list, &mut card, *place, row);
    let expected = replace(&mut list2, &mut card2, *place, row);
    if !agree_in_rows(given, expected) || list != list2 || card != card2 {
        return Err(format!("{given:?}, not {expected:?}, or the buffers differ: {lent:?}"));
    }
    note(&NUMBERS, &list, given.answer, seen);
    Ok(given.answer)
}

fn note(group: &Group, list: &[u64], answer: Answer, seen: &mut Seen) {
    seen.compared += 1;
    seen.note(group, item_of(list, answer));
}

/// A change in a series, by the list before it, with the answer to it and the cards before
/// and after.
pub struct Step<'a> {
    pub list: &'a [u64],
    pub change: &'a Change,
    pub answer: Answer,
    pub cards: [&'a [u64]; 2],
}

/// An accepted list, a card lent for it, and that card as the whole calculation left it.
pub fn accepted(seed: u64) -> (Vec<u64>, Vec<u64>, Vec<u64>) {
    let mut rng = Rng::new(seed);
    loop {
        let made = list(rng.any());
        let start =
            lent_card(CARD_NUMBERS * made.len() / FIELDS + rng.below(4) as usize, rng.any());
        let mut card = start.clone();
        if whole(&made, &mut card) == Answer::DONE {
            return (made, start, card);
        }
    }
}

fn course(_: u64, seed: u64, seen: &mut Seen) -> Found {
    beside_ledger(seed, 3 + (seed % 10) as usize, seen)
}

fn long_course(_: u64, seed: u64, seen: &mut Seen) -> Found {
    beside_ledger(seed, 300, seen)
}

/// Every answer is the ledger's, and so are the rows worked out, which it has from
/// whole calculations alone. After each replacement the series up to there is
/// judged: the list is the ledger's, and the card is what the whole calculation of
/// that list leaves in the card of the start.
fn beside_ledger(seed: u64, length: usize, seen: &mut Seen) -> Found {
    let (mut list, start, mut card) = accepted(seed);
    seen.note(&ROWS, row_count((list.len() / FIELDS) as u64));
    let mut ledger = Ledger::new(&list);
    for (step, change) in series(&list.clone(), length, seed).iter().enumerate() {
        let (old_list, before) = (list.clone(), card.clone());
        let given = boundary::replace(&mut list, &mut card, change.place, &change.row);
        let answer = ledger.feed(change.place, &change.row);
        let expected = Replaced { answer, rows: ledger.rows() };
        if !agree_in_rows(given, expected) {
            return Err(format!("{given:?}, not {expected:?}, at step {step} of series {seed}"));
        }
        if list != ledger.list() || card != ledger.card_in(&start) {
            return Err(format!("list or card differ after step {step} of series {seed}"));
        }
        note(&IN_SERIES, &list, answer, seen);
        let done = Step { list: &old_list, change, answer, cards: [&before, &card] };
        keyed::note_change(&done, seen);
        alone::note_change(&done, seen);
        if answer == Answer::DONE {
            Climb::new(&list, change.place, given.rows, [&before, &card]).note_in_series(seen);
        }
    }
    Ok(())
}

/// After each replacement the answer, the rows worked out, the list and the card are
/// the second program's.
fn foreign_course(_: u64, seed: u64, seen: &mut Seen) -> Found {
    let Lent { mut list, mut card } = foreign(seed);
    let (mut list2, mut card2) = (list.clone(), card.clone());
    let mut rng = Rng::new(!seed);
    for step in 0..12 {
        let (before, Change { place, row }) = (card.clone(), change(&list, rng.any()));
        let given = boundary::replace(&mut list, &mut card, place, &row);
        let expected = replace(&mut list2, &mut card2, place, &row);
        if !agree_in_rows(given, expected) || list != list2 || card != card2 {
            return Err(format!(
                "{given:?}, not {expected:?}, or the buffers differ: step {step}, seed {seed}"
            ));
        }
        note(&ON_FOREIGN, &list, given.answer, seen);
        if given.answer == Answer::DONE {
            Climb::new(&list, place, given.rows, [&before, &card]).note_on_foreign(seen);
        }
    }
    Ok(())
}
