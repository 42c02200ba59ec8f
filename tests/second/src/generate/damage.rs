//! Lists and cards that can't be used, or only just [01 §4].

use super::lists::{feeders, list, SHAPES};
use super::Rng;
use crate::conditions::own_step;
use crate::curve::{DEFINITE, LAWS};
use crate::row::*;

/// A list and a card as lent.
#[derive(Clone, Debug)]
pub struct Lent {
    pub list: Vec<u64>,
    pub card: Vec<u64>,
}

/// A card of random numbers, so that any number written shows.
pub fn lent_card(length: usize, seed: u64) -> Vec<u64> {
    let mut rng = Rng::new(seed);
    (0..length).map(|_| rng.any()).collect()
}

/// Every field of the row at its bounds and past them, the list otherwise as
/// it is; then low at and above high.
pub fn field_bounds(list: &[u64], place: u64) -> Vec<Vec<u64>> {
    let start = (place as usize - 1) * FIELDS;
    let bounds = bounds_of(&list.as_chunks().0[place as usize - 1]);
    let with = |at: usize, value: u64| {
        let mut moved = list.to_vec();
        moved[start + at] = value;
        moved
    };
    let mut lists = Vec::new();
    for (at, bound) in bounds.iter().enumerate() {
        let (least, greatest) =
            if at == 0 { (place, place) } else { (bound.least, bound.greatest) };
        let values = [0, least.wrapping_sub(1), least, greatest, greatest + 1, u64::MAX];
        lists.extend(values.map(|value| with(at, value)));
    }
    let (low, high) = (field::LOW - 1, list[start + field::LOW]);
    lists.extend([with(low, high), with(low, high + 1)]);
    lists
}

/// Lists in range of any kinds and devices with every other field at a bound, or
/// where that would always be refused at the greatest that can be accepted; the
/// products are at their largest.
pub fn corners(seed: u64) -> Vec<u64> {
    let mut rng = Rng::new(seed);
    let count = rng.pick(&[1, 2, 3, 5, MOST_ROWS as u64]);
    let shape = rng.pick(&SHAPES);
    let feeders = feeders(&mut rng, shape, count);
    let (ample, are_curves) = (rng.chance(50), rng.chance(50));
    let mut rows = Vec::new();
    for (place, &feeds_from) in (1..).zip(&feeders) {
        let mut row = Row::read(&BOUNDS.map(|bound| rng.pick(&[bound.least, bound.greatest])));
        (row.row, row.feeds_from) = (place, feeds_from);
        row.kind = rng.between(LINE, if feeders.contains(&place) { TRANSFORMER } else { MOTOR });
        row.device = rng.between(1, 3);
        row.law = if are_curves { rng.pick(&LAWS) } else { DEFINITE };
        if row.rated_primary == 0 {
            row.rated_secondary = 0;
        } else {
            row.rated_primary = rng.pick(&[1, 200, 1_000, row.rated_primary]);
            row.rated_secondary = rng.pick(&RATED_SECONDARIES);
            row.step = row.step.min(MOST_SECONDARY);
        }
        row.low = row.low.min(row.most_high());
        row.high = row.high.min(row.most_high()).max(row.low);
        if ample {
            row = Row { selfstart: 1_000, return_factor: 1_000, far: MOST_CURRENT, ..row };
            row = Row { low: 1, high: row.most_high(), step: 1, ceiling: MOST_DELAY, ..row };
            row.work = rng.pick(&[1, 1, 60_606_060, 60_606_061]);
            row.floor = rng.pick(&[0, MOST_DELAY - own_step(&row)]);
            if row.law != DEFINITE {
                let near_greatest = rng.pick(&[row.work * 3 / 2, MOST_CURRENT]);
                row = Row { near_greatest: near_greatest.min(MOST_CURRENT), floor: 0, ..row };
            }
        }
        rows.push(row);
    }
    numbers_of(&rows)
}

/// One to three kinds of damage to a list, and a card that may be short or long.
pub fn damaged(seed: u64) -> Lent {
    let mut rng = Rng::new(seed);
    let mut list = list(rng.any());
    for _ in 0..rng.between(1, 3) {
        damage(&mut rng, &mut list);
    }
    let room = CARD_NUMBERS * list.len().div_ceil(FIELDS);
    let length = match rng.below(10) {
        0 => rng.below(room as u64 + 1) as usize,
        1 => room.saturating_sub(1),
        2 | 3 => room + rng.between(1, 9) as usize,
        _ => room,
    };
    Lent { card: lent_card(length, rng.any()), list }
}

fn damage(rng: &mut Rng, list: &mut Vec<u64>) {
    let count = list.len() / FIELDS;
    match rng.below(20) {
        0 => list.clear(),
        1 => list.truncate(list.len() - list.len().min(rng.between(1, 17) as usize)),
        2 => list.extend(lent_card(rng.between(1, FIELDS as u64 - 1) as usize, 0)),
        3 => *list = list.repeat((MOST_ROWS + 1).div_ceil(count.max(1))),
        4 => *list = lent_card(FIELDS * rng.between(1, 5) as usize, rng.any()),
        5 => *list = list[..list.len().min(FIELDS)].repeat(MOST_ROWS + rng.below(2) as usize),
        _ if count == 0 => {}
        6..=9 => scatter(rng, list),
        10 => {
            let row = rng.below(count as u64) as usize * FIELDS;
            list[row + field::LOW - 1] = list[row + field::LOW].wrapping_add(1);
        }
        _ => misfeed(rng, list),
    }
}

/// Some fields at or past their bounds, anywhere.
fn scatter(rng: &mut Rng, list: &mut [u64]) {
    for _ in 0..rng.between(1, 6) {
        let at = rng.below(list.len() as u64) as usize;
        let bounds = list.as_chunks().0.get(at / FIELDS).map_or(&BOUNDS, bounds_of);
        let Bound { least, greatest, .. } = bounds[at % FIELDS];
        let values = [0, least.wrapping_sub(1), least, greatest, greatest + 1, u64::MAX, rng.any()];
        list[at] = rng.pick(&values);
    }
}

/// A wrong feeder at one row.
fn misfeed(rng: &mut Rng, list: &mut [u64]) {
    let count = (list.len() / FIELDS) as u64;
    let place = rng.between(1, count);
    let start = |place: u64| (place as usize - 1) * FIELDS;
    let feeder = list[start(place) + 1];
    let wrong = match rng.below(6) {
        0 => 0,
        1 => place,
        2 => rng.below(place),
        3 => count + 1,
        4 => MOST_ROWS as u64,
        _ => {
            if (1..=count).contains(&feeder) {
                list[start(feeder) + 2] = MOTOR;
            }
            feeder
        }
    };
    list[start(place) + 1] = wrong;
    if rng.chance(20) {
        list[start(count) + 1] = rng.between(1, MOST_ROWS as u64);
    }
}
