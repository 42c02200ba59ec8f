//! M at their bounds [02 §3], with what must be given: the row's own, its own at a fed
//! row's current, and on foreign cards the fed row's.

use crate::laws::law_name;
use crate::run::{Found, Group, Item, Kind, Seen};
use crate::{changes, lists};
use second::answer::*;
use second::curve::*;
use second::generate::*;
use second::row::{numbers_of, Row, CARD_NUMBERS, FIELDS, MOST_DELAY};
use second::whole::{whole, Settings};

const WHICH: [Which; 3] = [Which::Own, Which::There, Which::OfFed];
const OUTCOMES: [u64; 3] = [CURVE, DONE, DELAY];

/// Law and kind of M; target and what was given.
fn item(law: u64, which: Which, target: usize, given: u64) -> Item {
    let place = |of: Which| WHICH.iter().position(|which| *which == of).expect("one of them");
    let outcome = OUTCOMES.iter().position(|&number| number == given).unwrap_or(OUTCOMES.len());
    (3 * law + place(which) as u64, (4 * target + outcome) as u64)
}

/// At 1.001 a row's own time is past every ceiling.
fn due(which: Which, target: u64) -> u64 {
    match target {
        STILL => CURVE,
        _ if which == Which::Own && target == STILL + 1 => DELAY,
        _ => DONE,
    }
}

fn wanted(of: &[Which]) -> Vec<Item> {
    let of_law = |law: u64| {
        let of_which = |which: Which| {
            let targets = TARGETS.into_iter().enumerate();
            targets.map(move |(at, target)| item(law, which, at, due(which, target)))
        };
        of.iter().copied().flat_map(of_which).collect::<Vec<Item>>()
    };
    CURVES.into_iter().flat_map(of_law).collect()
}

const IN_LISTS: Group = Group {
    name: "M of curve rows in lists",
    wanted: || wanted(&WHICH[..2]),
    label: |(of, at)| {
        let which = ["own", "own at a fed row", "a fed row's"][of as usize % 3];
        let multiple = ["1.000", "1.001", "2.000", "19.999", "20.000", "above"][at as usize / 4];
        let given = ["CURVE", "done", "DELAY", "another"][at as usize % 4];
        format!("{} {which} {multiple} {given}:", law_name(of / 3))
    },
};

const IN_REPLACEMENTS: Group =
    Group { name: "M of curve rows in replacements", wanted: || wanted(&WHICH), ..IN_LISTS };

/// A fed row's law in the list and another one on the card, where that was done.
const LENT_LAWS: Group = Group {
    name: "laws off the path, in the list and on the card",
    wanted: || {
        let others = |law| LAWS.map(|lent| (law, lent)).into_iter().filter(|of| of.0 != of.1);
        LAWS.into_iter().flat_map(others).collect()
    },
    label: |item| format!("{} lent as {}:", law_name(item.0), law_name(item.1)),
};

const LENT_MULTIPLIERS: Group = Group {
    name: "lent multipliers of fed rows",
    wanted: || CURVES.into_iter().flat_map(|law| LENT.map(|lent| (law, lent))).collect(),
    label: |item| format!("{} {}:", law_name(item.0), item.1),
};

const LENT: [u64; 5] = [0, 1, 9, LEAST_MULTIPLIER, MOST_MULTIPLIER];

pub const OF_LISTS: [Group; 1] = [IN_LISTS];
pub const OF_REPLACEMENTS: [Group; 3] = [IN_REPLACEMENTS, LENT_LAWS, LENT_MULTIPLIERS];

pub const LISTS: Kind = Kind { name: "M at their bounds", cases: 1_500, case: of_list };

pub const REPLACEMENTS: [Kind; 2] = [
    Kind { name: "replacements with M at their bounds", cases: 1_500, case: of_replacement },
    Kind { name: "M of fed rows on foreign cards", cases: 3_000, case: of_fed },
];

/// A list with curve rows.
fn curves(count: u64, seed: u64) -> Vec<u64> {
    let (shape, keyed) = (SHAPES[count as usize % 4], KEYED[count as usize / 4 % 3]);
    list_with(shape, 1 + count % 12, keyed, LAW_MIXES[1 + count as usize / 12 % 2], seed)
}

/// The rows of an accepted list with curves, and its card.
pub fn accepted(count: u64, seed: u64) -> Option<(Vec<Row>, Vec<u64>)> {
    let list = curves(count, seed);
    let mut card = lent_card(CARD_NUMBERS * list.len() / FIELDS, seed);
    let rows = list.as_chunks().0.iter().map(Row::read).collect();
    (whole(&list, &mut card) == Answer::DONE).then_some((rows, card))
}

/// A list for each law, each of the two kinds of M, and each target. CURVE is given at the
/// row exactly where M is 1.000; where the fed row is refused before, nothing is noted.
fn each(
    (count, seed): (u64, u64),
    group: &Group,
    seen: &mut Seen,
    compare: impl Fn(&[u64], &AtMultiple, &mut Seen) -> Result<Answer, String>,
) -> Found {
    let list = curves(count, seed);
    let kinds = CURVES.into_iter().flat_map(|law| [(law, WHICH[0]), (law, WHICH[1])]);
    for (law, which) in kinds {
        for (at, target) in TARGETS.into_iter().enumerate() {
            let Some(made) = at_multiple(&list, law, which, target, seed) else { continue };
            let given = compare(&list, &made, seen)?;
            let of = item(law, which, at, given.number);
            let is_before = made.at != made.row && given == Answer::at(DELAY, made.at);
            if is_before {
                continue;
            }
            if (target == STILL) != (given == Answer::at(CURVE, made.row)) {
                return Err(format!("{} {given:?} at row {}", (group.label)(of), made.row));
            }
            seen.note(group, of);
        }
    }
    Ok(())
}

fn of_list(count: u64, seed: u64, seen: &mut Seen) -> Found {
    each((count, seed), &IN_LISTS, seen, |_, made, seen| {
        lists::same(&lists::with_room(made.list.clone(), seed), seen)
    })
}

/// The row whose near end it is replaced, on the accepted list's card.
fn of_replacement(count: u64, seed: u64, seen: &mut Seen) -> Found {
    each((count, seed), &IN_REPLACEMENTS, seen, |accepted, made, seen| {
        let row = (made.at as usize - 1) * FIELDS..made.at as usize * FIELDS;
        let change = Change { place: made.at, row: made.list[row.clone()].to_vec() };
        let mut card = lent_card(CARD_NUMBERS * accepted.len() / FIELDS, seed);
        whole(accepted, &mut card);
        let mut list = made.list.clone();
        list[row.clone()].copy_from_slice(&accepted[row]);
        changes::same(&Replacement { list, card, change }, seen)
    })
}

/// A fed row lent with each law, its M at each target by the pickup lent; the row that
/// feeds it replaces itself.
fn of_fed(count: u64, seed: u64, seen: &mut Seen) -> Found {
    let Some((rows, card)) = accepted(count, seed) else { return Ok(()) };
    let mut rng = Rng::new(seed);
    let fed: Vec<Row> = rows.iter().copied().filter(|row| row.feeds_from != 0).collect();
    let targets = TARGETS.into_iter().enumerate();
    for ((at, target), law) in targets.flat_map(|target| LAWS.map(|law| (target, law))) {
        let (Some(_), any) = (fed.first(), rng.between(0, MOST_MULTIPLIER)) else { break };
        let below = rng.pick(&fed);
        let multiplier = rng.pick(&[LENT[0], LENT[1], LENT[2], LENT[3], LENT[4], any]);
        let lent = (at_row(&card, below.row), law, multiplier);
        let Some(made) = lend_fed(&rows, &card, &below, target, lent) else { continue };
        let given = changes::same(&made, seen)?;
        let is_still = law != DEFINITE && target == STILL;
        if is_still != (given == Answer::at(CURVE, below.row)) {
            return Err(format!("{given:?}: row {} lent law {law} at {target}", below.row));
        }
        seen.note(&IN_REPLACEMENTS, item(law, Which::OfFed, at, given.number));
        if given == Answer::DONE {
            seen.note(&LENT_LAWS, (below.law, law));
            seen.note(&LENT_MULTIPLIERS, (law, multiplier));
        }
    }
    Ok(())
}

pub fn at_row(card: &[u64], row: u64) -> Settings {
    Settings::read(&card.as_chunks().0[row as usize - 1])
}

fn lend_fed(
    rows: &[Row],
    card: &[u64],
    below: &Row,
    target: u64,
    (set, law, multiplier): (Settings, u64, u64),
) -> Option<Replacement> {
    let (mut rows, mut card) = (rows.to_vec(), card.to_vec());
    let near_greatest = near_end_at(below, set.pickup, below, target)?;
    rows[below.row as usize - 1].near_greatest = near_greatest;
    let above = &mut rows[below.feeds_from as usize - 1];
    (above.floor, above.ceiling) = (0, MOST_DELAY);
    let change = Change { place: above.row, row: above.numbers().to_vec() };
    let lent = Settings { law, multiplier, ..set };
    card.as_chunks_mut().0[below.row as usize - 1] = lent.numbers();
    Some(Replacement { list: numbers_of(&rows), card, change })
}
