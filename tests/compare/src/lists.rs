//! Whole calculations of lists [01 §4, 02 §1, §2, §3].

use crate::answers::{agree, item_of, items_of, label};
use crate::run::{Found, Group, Item, Kind, Seen};
use crate::{boundary, keyed, laws};
use second::answer::*;
use second::generate::*;
use second::row::{BOUNDS, CARD_NUMBERS, FIELDS, MOST_ROWS};
use second::whole::whole;

pub const NUMBERS: Group = Group {
    name: "numbers given back",
    wanted: || items_of(&[DONE, COUNT, ROOM, FIELD, TREE, RANGE, OWN_ZONE, BACKUP, CURVE, DELAY]),
    label,
};

pub const FIELDS_NAMED: Group = Group {
    name: "fields named with FIELD",
    wanted: || (1..=FIELDS as u64).map(|field| (field, 0)).collect(),
    label: |item| format!("{} {}", item.0, BOUNDS[item.0 as usize - 1].column),
};

const ROW_COUNTS: [Item; 7] = [(1, 1), (2, 2), (3, 8), (9, 40), (41, 128), (129, 255), (256, 256)];

pub const ACCEPTED_ROWS: Group = Group {
    name: "rows of accepted lists",
    wanted: || ROW_COUNTS.to_vec(),
    label: |item| format!("{}..={}:", item.0, item.1),
};

/// How many different volts, as 1 or 2 for more.
pub const ACCEPTED_VOLTS: Group = Group {
    name: "voltages of accepted lists",
    wanted: || vec![(1, 0), (2, 0)],
    label: |item| if item.0 == 1 { "one" } else { "several" }.to_string(),
};

pub const GROUPS: [Group; 4] = [NUMBERS, FIELDS_NAMED, ACCEPTED_ROWS, ACCEPTED_VOLTS];

pub const KINDS: [Kind; 10] = [
    Kind { name: "chains", cases: 60_000, case: |_, seed, seen| shaped(Shape::Chain, seed, seen) },
    Kind { name: "stars", cases: 60_000, case: |_, seed, seen| shaped(Shape::Star, seed, seen) },
    Kind { name: "trees", cases: 60_000, case: |_, seed, seen| shaped(Shape::Tree, seed, seen) },
    Kind {
        name: "deep trees",
        cases: 60_000,
        case: |_, seed, seen| shaped(Shape::Deep, seed, seen),
    },
    Kind { name: "tiny lists", cases: 20_000, case: |_, seed, seen| ample(tiny(seed), seed, seen) },
    Kind { name: "corners", cases: 8_000, case: |_, seed, seen| ample(corners(seed), seed, seen) },
    Kind {
        name: "damaged lists",
        cases: 30_000,
        case: |_, seed, seen| done(same(&damaged(seed), seen)),
    },
    Kind { name: "fields at their bounds", cases: 120, case: bounds },
    Kind { name: "lengths", cases: 6_000, case: length },
    Kind { name: "rooms", cases: 1_500, case: rooms },
];

/// Both programs on the same list and card. They must agree in number, place,
/// field and every number of the card; a guard on each side of the lent card,
/// the list, the card's numbers past the rows and a refused card must stand.
pub fn same(lent: &Lent, seen: &mut Seen) -> Result<Answer, String> {
    const GUARD: usize = 3;
    let end = GUARD + lent.card.len();
    let mut guarded = lent_card(end + GUARD, 7);
    guarded[GUARD..end].copy_from_slice(&lent.card);
    let (list, before, mut card) = (lent.list.clone(), guarded.clone(), lent.card.clone());
    let answer = boundary::whole(&list, &mut guarded[GUARD..end]);
    let expected = whole(&lent.list, &mut card);
    let rows = lent.list.len() / FIELDS;
    let written = if expected == Answer::DONE { CARD_NUMBERS * rows } else { 0 };
    let stand = guarded[..GUARD] == before[..GUARD]
        && guarded[GUARD + written..] == before[GUARD + written..];
    if !agree(answer, expected) || guarded[GUARD..end] != card || !stand || list != lent.list {
        return Err(format!("{answer:?}, not {expected:?}, or the buffers differ: {lent:?}"));
    }
    note(&lent.list, answer, seen);
    match answer {
        Answer::DONE => {
            keyed::note_accepted(&lent.list, &card, seen);
            laws::note_accepted(&lent.list, &card, seen);
        }
        refusal => keyed::note_refused(&lent.list, refusal, seen),
    }
    Ok(answer)
}

/// The item of ACCEPTED_ROWS that so many rows belong to.
pub fn row_count(rows: u64) -> Item {
    let counts = ROW_COUNTS.into_iter().find(|&(least, most)| least <= rows && rows <= most);
    counts.expect("1 to 256 rows")
}

fn note(list: &[u64], answer: Answer, seen: &mut Seen) {
    seen.compared += 1;
    seen.note(&NUMBERS, item_of(list, answer));
    if answer.number == FIELD {
        seen.note(&FIELDS_NAMED, (answer.field, 0));
    }
    if answer == Answer::DONE {
        seen.accepted += 1;
        seen.note(&ACCEPTED_ROWS, row_count((list.len() / FIELDS) as u64));
        let one = list.chunks(FIELDS).all(|row| row[3] == list[3]);
        seen.note(&ACCEPTED_VOLTS, (if one { 1 } else { 2 }, 0));
    }
}

fn done(answer: Result<Answer, String>) -> Found {
    answer.map(|_| ())
}

/// The list with a card of random numbers, at times with more room than it takes.
pub fn with_room(list: Vec<u64>, seed: u64) -> Lent {
    let room = CARD_NUMBERS * list.len() / FIELDS + (seed % 3 * 2) as usize;
    Lent { list, card: lent_card(room, seed) }
}

fn ample(list: Vec<u64>, seed: u64, seen: &mut Seen) -> Found {
    done(same(&with_room(list, seed), seen))
}

fn shaped(shape: Shape, seed: u64, seen: &mut Seen) -> Found {
    let mut rng = Rng::new(seed);
    let most = rng.pick(&[1, 2, 3, 8, 8, 8, 40, 40, 40, MOST_ROWS as u64]);
    let rows = if rng.chance(1) { MOST_ROWS as u64 } else { rng.between(1, most) };
    ample(list_shaped(shape, rows, rng.any()), seed, seen)
}

/// Every field of a row at its bounds and just past them.
fn bounds(count: u64, seed: u64, seen: &mut Seen) -> Found {
    let mut rng = Rng::new(seed);
    let rows = rng.between(1, if count.is_multiple_of(10) { 30 } else { 6 });
    let list = list_shaped(rng.pick(&SHAPES), rows, rng.any());
    let place = rng.between(1, rows);
    field_bounds(&list, place).into_iter().try_for_each(|list| ample(list, seed, seen))
}

/// A list of every length: rows of a plausible list over and over, or any numbers.
fn length(count: u64, seed: u64, seen: &mut Seen) -> Found {
    let mut rng = Rng::new(seed);
    let length = count as usize;
    let room = rng.below(1_000) as usize;
    let list = if rng.chance(50) {
        list(seed).into_iter().cycle().take(length).collect()
    } else {
        lent_card(length, seed)
    };
    done(same(&Lent { list, card: lent_card(room, seed) }, seen))
}

/// The card's room on each side of what is asked, and none.
fn rooms(_: u64, seed: u64, seen: &mut Seen) -> Found {
    let list = list(seed);
    let asked = CARD_NUMBERS * list.len() / FIELDS;
    let rooms = [0, asked / 2, asked - 1, asked, asked + 1];
    rooms.into_iter().try_for_each(|room| {
        done(same(&Lent { list: list.clone(), card: lent_card(room, seed) }, seen))
    })
}
