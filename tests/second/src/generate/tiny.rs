//! Lists of one to three rows with few available values, for trying every
//! combination, keyed in any way [02 §1], of any laws [02 §3].

use super::laws::{lay_near_end, lay_times, widest_timed, Laws};
use super::lists::{backup_bound, feeders, Shape};
use super::ratios::Keyed;
use super::Rng;
use crate::conditions::Fed;
use crate::curve::{time_at, DEFINITE};
use crate::row::*;
use crate::whole::{fed_rows, settle, Settings};

/// Coarse and fine ones, most of whose pickups are no whole primary mA over 5 A.
const RATIOS: [(u64, u64); 8] = [(1, 1), (2, 1), (3, 1), (1, 5), (3, 5), (7, 5), (12, 5), (20, 5)];

pub fn tiny(seed: u64) -> Vec<u64> {
    let (mut rng, mut ratios) = (Rng::new(seed), Rng::new(!seed));
    let keyed = Keyed::of_seed(seed);
    let count = rng.between(1, 3);
    let feeders = feeders(&mut rng, Shape::Tree, count);
    let (mut rows, mut settings) = (Vec::<Row>::new(), Vec::new());
    for (place, &feeds_from) in (1..).zip(&feeders) {
        let most = if feeders.contains(&place) { TRANSFORMER } else { MOTOR };
        let fed = fed_rows(&rows, &settings, place);
        let mut row = draft(&mut rng, most);
        (row.row, row.feeds_from) = (place, feeds_from);
        if keyed.is_secondary(&mut ratios) {
            (row.rated_primary, row.rated_secondary) = ratios.pick(&RATIOS);
            row.high = row.most_high();
        }
        let set = narrow(&mut rng, &mut row, &fed);
        for below in rows.iter_mut().filter(|below| below.feeds_from == place) {
            back_up(&mut rng, below, backup_bound(below, &row, row.primary(set.pickup)));
        }
        rows.push(row);
        settings.push(set);
    }
    let laws = Laws::of_seed(seed);
    if laws != Laws::Definite {
        lay_laws(&mut Rng::new(seed.rotate_left(32)), laws, &mut rows, &settings);
    }
    numbers_of(&rows)
}

/// Near-end currents of 0.700 to 20.000 times a pickup and about, and the times narrowed
/// about the least.
fn lay_laws(rng: &mut Rng, laws: Laws, rows: &mut [Row], pickups: &[Settings]) {
    const MULTIPLES: [u64; 10] =
        [700, 1_000, 1_000, 1_050, 1_300, 2_000, 3_000, 5_000, 10_000, 20_000];
    for at in 0..rows.len() {
        rows[at].law = laws.law(rng);
        lay_near_end(rows, pickups, at, rng.pick(&MULTIPLES));
        rows[at].near_greatest += rng.pick(&[0, 0, 1, 2]);
    }
    lay_times(rows, pickups, |row, pickup, fed| {
        row.floor = rng.pick(&[0, 0, 100, 200, 250]);
        let set = widest_timed(row, pickup, fed);
        narrow_time(rng, row, time_at(row, &set, row).unwrap_or(0));
        set
    });
}

fn draft(rng: &mut Rng, most_kind: u64) -> Row {
    Row {
        row: 0,
        feeds_from: 0,
        kind: rng.between(LINE, most_kind),
        volts: rng.pick(&[100, 100, 110, 220]),
        work: rng.between(1, 20),
        selfstart: rng.pick(&[1_000, 1_000, 1_600, 2_000]),
        return_factor: rng.pick(&[800, 880, 935, 1_000]),
        far: MOST_CURRENT,
        clear: rng.between(1, 80),
        near: rng.between(1, 160),
        factor: rng.pick(&[1_000, 1_250, 1_300, 2_000]),
        low: rng.between(1, 20),
        high: MOST_CURRENT,
        step: rng.between(1, 6),
        device: rng.between(1, 3),
        floor: rng.pick(&[0, 1, 99, 101, 200, 300, 500]),
        ceiling: MOST_DELAY,
        backed: 0,
        rated_primary: 0,
        rated_secondary: 0,
        law: DEFINITE,
        near_greatest: 1,
    }
}

/// Leaves at most four pickups and five delays about the least ones; far is just
/// enough, just too little, or ample.
fn narrow(rng: &mut Rng, row: &mut Row, fed: &[Fed]) -> Settings {
    let set = settle(row, fed).expect("the widest bounds");
    let below = rng.below(3) * row.step;
    if set.pickup > below {
        row.low = set.pickup - below;
    }
    row.high = row.low + rng.pick(&[0, 1, 2, 2, 3, 3]) * row.step + rng.below(row.step);
    let pickup = row.primary(set.pickup).0;
    let zone = (pickup * 3).over(2).down().max(2);
    row.far = zone + rng.below(6) - 1 + rng.pick(&[0, pickup.down()]);
    narrow_time(rng, row, set.delay);
    set
}

/// Leaves times of at most five ms about the least one.
fn narrow_time(rng: &mut Rng, row: &mut Row, time: u64) {
    row.floor = row.floor.max(time.saturating_sub(rng.below(3)));
    row.ceiling = (time + rng.below(4)).saturating_sub(rng.below(2)).min(MOST_DELAY);
}

/// Asks for backup with far just enough, just too little, or as it is.
fn back_up(rng: &mut Rng, below: &mut Row, bound: u64) {
    below.backed = u64::from(rng.chance(70));
    let far = (bound + rng.below(4)).saturating_sub(1);
    if rng.chance(60) && far > below.far {
        below.far = far;
    }
}
