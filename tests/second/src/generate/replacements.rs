//! Replacements: changes that go, refused ones of every kind, and series of
//! them [01 §4].

use super::damage::{damaged, lent_card, Lent};
use super::laws::other_near_end;
use super::lists::{backup_bound, list, zone_bound};
use super::ratios::keyed_otherwise;
use super::{accepted, Rng};
use crate::curve::{DEFINITE, LAWS};
use crate::replace::{edited, Ledger};
use crate::row::*;
use crate::whole::{whole, Answer, Settings};

/// A place and the new row for it.
#[derive(Clone, Debug)]
pub struct Change {
    pub place: u64,
    pub row: Vec<u64>,
}

/// All that one replacement is lent.
#[derive(Clone, Debug)]
pub struct Replacement {
    pub list: Vec<u64>,
    pub card: Vec<u64>,
    pub change: Change,
}

/// Changes to an accepted list, each made for the list as the ones before left it.
pub fn series(list: &[u64], length: usize, seed: u64) -> Vec<Change> {
    let mut rng = Rng::new(seed);
    let mut ledger = Ledger::new(list);
    let step = |_| {
        let change = change(ledger.list(), rng.any());
        ledger.feed(change.place, &change.row);
        change
    };
    (0..length).map(step).collect()
}

/// A change to one row of the list, at times one to be refused.
pub fn change(list: &[u64], seed: u64) -> Change {
    let mut rng = Rng::new(seed);
    let rows = list.as_chunks::<FIELDS>().0;
    if rows.is_empty() {
        return Change { place: rng.below(2), row: lent_card(FIELDS, rng.any()) };
    }
    if rng.chance(8) {
        return far_going(&mut rng, Row::read(&rows[0]));
    }
    let old = rng.pick(rows);
    let place = old[0];
    let mut row = Row::read(&old);
    match rng.below(29) {
        0..=2 => return wrong_edit(&mut rng, rows.len() as u64, row),
        3 => return Change { place, row: out_of_range(&mut rng, old) },
        4 => row.kind = MOTOR,
        5 => row.far = row.far.min(rng.pick(&[1, row.low, row.low.saturating_mul(3) / 2])),
        6 => row.work = row.work.saturating_mul(rng.between(2, 9)).min(MOST_CURRENT),
        7 => row.ceiling = rng.below(row.ceiling.min(MOST_DELAY) + 1),
        8 => row.floor = row.ceiling.saturating_add(1).min(MOST_DELAY),
        9 => {}
        10 | 11 => row.device = rng.between(1, 3),
        12 => just_fits(&mut rng, list, &mut row),
        13..=15 if row.is_in_range() => row = keyed_otherwise(&mut rng, &row),
        16..=18 => row.law = rng.pick(&LAWS),
        19..=21 => row.near_greatest = other_near_end(&mut rng, list, &row),
        _ => return Change { place, row: nudged(&mut rng, old) },
    }
    Change { place, row: row.numbers().to_vec() }
}

/// The first row, whose path is a chain's longest, now asks less of the rows that
/// feed it, which have room for that: lower pickups, shorter delays or both [02 §8].
fn far_going(rng: &mut Rng, mut row: Row) -> Change {
    let which = rng.below(3);
    if which != 0 {
        row.floor = row.floor.saturating_sub(rng.between(1, 20));
    }
    if which != 1 {
        row.work -= row.work / rng.between(10, 100);
    }
    Change { place: row.row, row: row.numbers().to_vec() }
}

/// At an accepted list's own pickups: high, far for P3 or far for the feeding
/// row's P4 is just enough, or one too little [02 §2].
fn just_fits(rng: &mut Rng, list: &[u64], row: &mut Row) {
    let Some((rows, settings)) = accepted(list) else { return };
    let pickup_of = |place: u64| settings[place as usize - 1].pickup;
    let (own, less) = (pickup_of(row.row), rng.below(2));
    match rng.below(4) {
        0 => row.high = (own - less).max(row.low),
        1 => row.far = zone_bound(row.primary(own)).min(MOST_CURRENT) - less,
        _ if row.feeds_from == 0 => {}
        _ => {
            let feeder = rows[row.feeds_from as usize - 1];
            let bound = backup_bound(row, &feeder, feeder.primary(pickup_of(feeder.row)));
            (row.far, row.backed) = (bound.min(MOST_CURRENT) - less, 1);
        }
    }
}

/// EDIT by the place, by field 1, by field 2, or by the length of the row.
fn wrong_edit(rng: &mut Rng, count: u64, row: Row) -> Change {
    let mut change = Change { place: row.row, row: row.numbers().to_vec() };
    match rng.below(6) {
        0 => change.place = rng.pick(&[0, count + 1, u64::MAX]),
        1 => change.place = change.place % count + 1,
        2 => change.row[0] = rng.pick(&[0, change.place.wrapping_add(1), u64::MAX]),
        3 => change.row[1] = rng.pick(&[change.row[1].wrapping_add(1), 0, u64::MAX]),
        4 => change.row.truncate(rng.below(FIELDS as u64) as usize),
        _ => change.row.push(rng.below(2)),
    }
    change
}

fn out_of_range(rng: &mut Rng, mut row: [u64; FIELDS]) -> Vec<u64> {
    let at = rng.between(2, FIELDS as u64 - 1) as usize;
    let Bound { least, greatest, .. } = bounds_of(&row)[at];
    row[at] = rng.pick(&[least.wrapping_sub(1), greatest + 1, u64::MAX]);
    if rng.chance(20) {
        row[field::LOW - 1] = row[field::LOW].saturating_add(1);
    }
    row.to_vec()
}

/// One or two fields past the second moved a little or by a factor; of the ratio
/// only the rated primary, where there is one.
fn nudged(rng: &mut Rng, mut row: [u64; FIELDS]) -> Vec<u64> {
    let bounds = bounds_of(&row);
    let last =
        if row[field::RATED_PRIMARY - 1] == 0 { field::BACKED } else { field::RATED_PRIMARY };
    for _ in 0..rng.between(1, 2) {
        let at = rng.between(2, last as u64 - 1) as usize;
        let (value, bound) = (row[at].min(bounds[at].greatest), bounds[at]);
        let moved = rng.pick(&[
            value + 1,
            value.saturating_sub(1),
            value * 101 / 100,
            value * 99 / 100,
            value * 11 / 10,
            value * 9 / 10,
        ]);
        row[at] = moved.clamp(bound.least, bound.greatest);
    }
    row.to_vec()
}

/// A replacement on any list with any card.
pub fn replacement(seed: u64) -> Replacement {
    let mut rng = Rng::new(seed);
    let list = if rng.chance(80) { list(rng.any()) } else { damaged(rng.any()).list };
    let room = CARD_NUMBERS * list.len() / FIELDS;
    let bounds = card_bounds(&list, room);
    let most = |at: usize| if at % CARD_NUMBERS == 1 { 3_000 } else { 1_000_000 };
    let mut card: Vec<u64> =
        (0..room).map(|at| rng.between(1, most(at).min(bounds[at].greatest))).collect();
    for row in card.as_chunks_mut::<CARD_NUMBERS>().0.iter_mut().filter(|_| rng.chance(60)) {
        *row = Settings { law: DEFINITE, ..Settings::read(row) }.numbers();
    }
    let own = whole(&list, &mut card) == Answer::DONE;
    if room > 0 && rng.chance(if own { 70 } else { 20 }) {
        disturb(&mut rng, &mut card, &bounds);
    }
    match rng.below(10) {
        0 => card.truncate(room - room.min(rng.between(1, 4) as usize)),
        1 | 2 => card.extend(lent_card(rng.between(1, 5) as usize, rng.any())),
        _ => {}
    }
    let change = change(&list, rng.any());
    Replacement { list, card, change }
}

/// For each number of a card its bounds off the replaced row [02 §1].
fn card_bounds(list: &[u64], room: usize) -> Vec<Bound> {
    let rows = list.as_chunks().0.iter().map(|numbers| Row::read(numbers).card_bounds());
    let past = std::iter::repeat(CARD_BOUNDS);
    rows.chain(past).flatten().take(room).collect()
}

/// Some card numbers moved, at times out of their bounds, the replaced row's perhaps
/// within its own.
fn disturb(rng: &mut Rng, card: &mut [u64], bounds: &[Bound]) {
    let in_bounds = rng.chance(70);
    for _ in 0..rng.between(1, 4) {
        let at = rng.below(card.len() as u64) as usize;
        let Bound { least, greatest, .. } = bounds[at];
        let most = CARD_BOUNDS[at % CARD_NUMBERS].greatest;
        let near = (card[at].min(greatest) * rng.between(50, 150) / 100).clamp(least, greatest);
        let out = rng.pick(&[least.wrapping_sub(1), greatest + 1, most, most + 1, u64::MAX]);
        card[at] = if in_bounds { rng.pick(&[near, near, least, greatest]) } else { out };
    }
}

/// An accepted list and its card, with some rows of the list, of the card or of
/// both then moved within their bounds, so that the card isn't the list's [02 §8].
pub fn foreign(seed: u64) -> Lent {
    let mut rng = Rng::new(seed);
    loop {
        let mut list = list(rng.any());
        let end = CARD_NUMBERS * list.len() / FIELDS;
        let mut card = lent_card(end + rng.below(4) as usize, rng.any());
        if whole(&list, &mut card) == Answer::DONE {
            let which = rng.below(3);
            if which != 0 {
                move_settings(&mut rng, &mut card[..end], &card_bounds(&list, end));
            }
            if which != 1 {
                move_rows(&mut rng, &mut list);
            }
            return Lent { list, card };
        }
    }
}

/// Changes that the card knows nothing of.
fn move_rows(rng: &mut Rng, list: &mut [u64]) {
    for _ in 0..rng.between(1, 3) {
        let Change { place, row } = change(list, rng.any());
        if let Some(made) = edited(list, place, &row).filter(|made| read_list(made).is_ok()) {
            list.copy_from_slice(&made);
        }
    }
}

fn move_settings(rng: &mut Rng, card: &mut [u64], bounds: &[Bound]) {
    let bounds = bounds.chunks_exact(CARD_NUMBERS);
    for (row, bounds) in card.chunks_exact_mut(CARD_NUMBERS).zip(bounds) {
        let is_moved = rng.chance(30);
        for (value, bound) in row.iter_mut().zip(bounds) {
            if is_moved && rng.chance(60) {
                let near = rng.between(*value / 2, 2 * *value + 1);
                *value = near.clamp(bound.least, bound.greatest);
            }
        }
    }
}
