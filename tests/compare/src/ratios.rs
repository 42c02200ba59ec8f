//! Fields about a row's ratio, law and near end, and the limits of CARD [02 §1, §3], each
//! with what must be given, in lists, replacements and texts.

use crate::answers::name_of;
use crate::boundary::CARD_ROOM;
use crate::climbs::COLUMNS;
use crate::run::{Found, Group, Item, Kind, Seen};
use crate::{changes, lists, texts};
use second::answer::*;
use second::current::{Fraction, Primary};
use second::curve::DEFINITE;
use second::generate::*;
use second::row::{field, Bound, Row, CARD_NUMBERS, FIELDS, MOST_CURRENT};
use second::whole::Settings;

/// By the place in RATIO_CASES.
const IN_LISTS: Group = Group {
    name: "fields about a ratio, in lists",
    wanted: || (0..RATIO_CASES.len() as u64).map(|at| (at, 0)).collect(),
    label: |(at, _)| {
        let RatioCase { changes, named } = &RATIO_CASES[at as usize];
        let named = named.map_or("none".to_string(), |field| field.to_string());
        format!("{changes:?} names {named}:")
    },
};

/// And with 1 where another row is replaced.
const IN_REPLACEMENTS: Group = Group {
    name: "fields about a ratio, in replacements",
    wanted: || {
        let cases = 0..RATIO_CASES.len() as u64;
        cases.flat_map(|at| [(at, 0), (at, 1)]).filter(|&item| !is_edit(item)).collect()
    },
    label: |item| {
        let row = ["the new row", "another row"][item.1 as usize];
        format!("{} {row}", (IN_LISTS.label)(item))
    },
};

/// Those whose numbers have nine digits at most.
const IN_TEXTS: Group = Group {
    name: "fields about a ratio, in texts",
    wanted: || (IN_LISTS.wanted)().into_iter().filter(|&(at, _)| is_text(case(at))).collect(),
    ..IN_LISTS
};

/// By the place in `card_cases`.
const CARDS: Group = Group {
    name: "card numbers at their limits, by how the row is keyed",
    wanted: || (0..card_cases().len() as u64).map(|at| (at, 0)).collect(),
    label: |(at, _)| {
        let CardCase { is_replaced, was_secondary, is_secondary, column, value, is_refused } =
            card_cases()[at as usize];
        let side = |is_secondary| if is_secondary { "secondary" } else { "primary" };
        let (before, after) = (side(was_secondary), side(is_secondary));
        let row = if is_replaced { "replaced" } else { "other" };
        let given = if is_refused { "CARD" } else { "let in" };
        let column = COLUMNS[column];
        format!("{row} row {before} then {after}, {column} {value} {given}:")
    },
};

/// Off the path a card row that is more than 100,000,000 primary mA, right below the
/// replaced row, and what was given.
const GREATEST: Group = Group {
    name: "replacements above a lent pickup of over 100,000,000 primary mA",
    wanted: || [DONE, RANGE, OWN_ZONE, CURVE, DELAY].map(|number| (number, 0)).to_vec(),
    label: |item| name_of(item.0).to_string(),
};

pub const OF_LISTS: [Group; 1] = [IN_LISTS];
pub const OF_REPLACEMENTS: [Group; 3] = [IN_REPLACEMENTS, CARDS, GREATEST];
pub const OF_TEXTS: [Group; 1] = [IN_TEXTS];

pub const LISTS: Kind = Kind { name: "fields about a ratio", cases: 60, case: of_list };

pub const REPLACEMENTS: [Kind; 3] = [
    Kind { name: "replacements with fields about a ratio", cases: 60, case: of_replacement },
    Kind { name: "cards at their limits", cases: 40, case: of_card },
    Kind { name: "cards with the greatest numbers", cases: 100_000, case: greatest },
];

pub const TEXTS: Kind = Kind { name: "texts with fields about a ratio", cases: 20, case: of_text };

fn case(at: u64) -> &'static RatioCase {
    const CASES: &[RatioCase] = &RATIO_CASES;
    &CASES[at as usize]
}

fn is_text(case: &RatioCase) -> bool {
    case.changes.iter().all(|&(_, value)| value < 1_000_000_000)
}

/// A new row with another number or feeding row is refused before its fields are.
fn is_edit((at, other): Item) -> bool {
    let is_kept = |&(of, _): &(usize, u64)| [field::ROW, field::FEEDS_FROM].contains(&of);
    other == 0 && case(at).changes.iter().any(is_kept)
}

/// An accepted list of two rows or more, its card, and a row of it.
fn accepted(seed: u64) -> (Vec<u64>, Vec<u64>, u64) {
    let mut rng = Rng::new(seed);
    loop {
        let (list, _, card) = changes::accepted(rng.any());
        let rows = (list.len() / FIELDS) as u64;
        if (2..=40).contains(&rows) {
            return (list, card, rng.between(1, rows));
        }
    }
}

/// FIELD at the row and the field, or no FIELD.
fn is_due(group: &Group, item: Item, place: u64, given: Answer, seen: &mut Seen) -> Found {
    let is_right = match case(item.0).named {
        Some(field) => given == Answer::field(place, field as u64),
        None => given.number != FIELD,
    };
    if !is_right {
        return Err(format!("{} {given:?} at row {place}", (group.label)(item)));
    }
    seen.note(group, item);
    Ok(())
}

fn of_list(_: u64, seed: u64, seen: &mut Seen) -> Found {
    let (list, _, place) = accepted(seed);
    (0..).zip(&RATIO_CASES).try_for_each(|(at, case)| {
        let list = with_ratio(&list, place, case);
        let given = lists::same(&lists::with_room(list, seed), seen)?;
        is_due(&IN_LISTS, (at, 0), place, given, seen)
    })
}

/// The row replaced by the case's, then the case's row in the list and another one
/// replaced by itself.
fn of_replacement(_: u64, seed: u64, seen: &mut Seen) -> Found {
    let (list, card, place) = accepted(seed);
    let other = place % (list.len() / FIELDS) as u64 + 1;
    let row = |list: &[u64], place: u64| list[(place as usize - 1) * FIELDS..][..FIELDS].to_vec();
    for (at, case) in (0..).zip(&RATIO_CASES) {
        let made = with_ratio(&list, place, case);
        let new = Change { place, row: row(&made, place) };
        let same = Change { place: other, row: row(&list, other) };
        for (which, (list, change)) in [(list.clone(), new), (made, same)].into_iter().enumerate() {
            let given = changes::same(&Replacement { list, card: card.clone(), change }, seen)?;
            let item = (at, which as u64);
            match (is_edit(item), given.number) {
                (true, EDIT) => {}
                (true, _) => return Err(format!("{given:?}, not EDIT: row {place}")),
                (false, _) => is_due(&IN_REPLACEMENTS, item, place, given, seen)?,
            }
        }
    }
    Ok(())
}

fn of_card(_: u64, seed: u64, seen: &mut Seen) -> Found {
    let (list, card, place) = accepted(seed);
    for (at, case) in (0..).zip(card_cases()) {
        let given = changes::same(&lend(&list, &card, place, &case), seen)?;
        let is_right =
            if case.is_refused { given == Answer::at(CARD, place) } else { given.number != CARD };
        if !is_right {
            return Err(format!("{} {given:?} at row {place}", (CARDS.label)((at, 0))));
        }
        seen.note(&CARDS, (at, 0));
    }
    Ok(())
}

/// A list at the corners, a card with the greatest numbers that CARD lets in or the
/// least, and any row that is not the first in place of itself.
fn greatest(_: u64, seed: u64, seen: &mut Seen) -> Found {
    let mut rng = Rng::new(seed);
    let list = corners(rng.any());
    let rows: Vec<Row> = list.as_chunks().0.iter().map(Row::read).collect();
    let number = |bound: Bound| rng.pick(&[bound.greatest, bound.greatest, bound.least]);
    let mut card: Vec<u64> = rows.iter().flat_map(Row::card_bounds).map(number).collect();
    for row in card.as_chunks_mut::<CARD_NUMBERS>().0.iter_mut().filter(|_| rng.chance(70)) {
        *row = Settings { law: DEFINITE, ..Settings::read(row) }.numbers();
    }
    let place = rng.between(rows.len().min(2) as u64, rows.len() as u64);
    let row = rows[place as usize - 1].numbers().to_vec();
    let change = Change { place, row };
    let given = changes::same(&Replacement { list, card: card.clone(), change }, seen)?;
    let most = Primary(Fraction::from(MOST_CURRENT));
    let is_over = |fed: &Row| {
        let at = (fed.row as usize - 1) * CARD_NUMBERS;
        fed.feeds_from == place && fed.primary(card[at]) > most
    };
    if rows.iter().any(is_over) && [0, place].contains(&given.place) {
        seen.note(&GREATEST, (given.number, 0));
    }
    Ok(())
}

fn of_text(_: u64, seed: u64, seen: &mut Seen) -> Found {
    let (list, _, place) = accepted(seed);
    for (at, case) in (0..).zip(&RATIO_CASES).filter(|(_, case)| is_text(case)) {
        let given = texts::same(&text(&with_ratio(&list, place, case), seed), CARD_ROOM, seen)?;
        is_due(&IN_TEXTS, (at, 0), place, given, seen)?;
    }
    Ok(())
}
