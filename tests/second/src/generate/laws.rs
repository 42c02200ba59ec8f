//! Curve rows among others [02 §3]: laws, near-end currents, and times laid anew over
//! rows whose pickups stand.

use super::lists::Fault;
use super::{accepted, Rng};
use crate::answer::DELAY;
use crate::conditions::Fed;
use crate::curve::*;
use crate::row::{Row, MOST_CURRENT, MOST_DELAY};
use crate::whole::{fed_rows, timed, Settings};

/// Which rows of a list are curves.
#[derive(Clone, Copy, Debug, PartialEq, Eq)]
pub enum Laws {
    Definite,
    Curves,
    Mixed,
}

pub const LAW_MIXES: [Laws; 3] = [Laws::Definite, Laws::Curves, Laws::Mixed];

impl Laws {
    pub fn of_seed(seed: u64) -> Laws {
        use Laws::*;
        Rng::new(seed ^ 0x1a35_0fc0).pick(&[Definite, Definite, Curves, Mixed, Mixed])
    }

    pub fn law(self, rng: &mut Rng) -> u64 {
        match self {
            Laws::Definite => DEFINITE,
            Laws::Curves => rng.pick(&CURVES),
            Laws::Mixed => rng.pick(&LAWS),
        }
    }
}

/// M in thousandths: of a row at the current of one that it feeds.
const MULTIPLES: [u64; 12] =
    [1_010, 1_050, 1_200, 1_500, 2_000, 3_000, 5_000, 8_000, 12_000, 20_000, 20_001, 30_000];
/// With the same for all rows, times stay short on a long path.
const EVEN_MULTIPLES: [u64; 4] = [1_500, 2_000, 3_000, 4_000];

/// Gives the rows laws and near-end currents, and bounds on their times anew. Where no
/// multiplier will do, the row is definite after all.
pub fn lay_laws(
    rng: &mut Rng,
    laws: Laws,
    rows: &mut [Row],
    pickups: &[Settings],
    fault: Option<(u64, Fault)>,
) {
    let common = rng.pick(&EVEN_MULTIPLES);
    let is_even = rows.len() > 40 || rng.chance(50);
    rows.iter_mut().for_each(|row| row.law = laws.law(rng));
    for at in 0..rows.len() {
        let any = rng.pick(&MULTIPLES);
        lay_near_end(rows, pickups, at, if is_even { common } else { any });
        if rows[at].near_greatest == MOST_CURRENT {
            // Too little, perhaps, for it or for the row that feeds it.
            rows[at].law = DEFINITE;
            let feeder = (rows[at].feeds_from as usize).wrapping_sub(1);
            rows.get_mut(feeder).into_iter().for_each(|row| row.law = DEFINITE);
        }
    }
    let fault = fault.filter(|&(_, fault)| fault == Fault::Ceiling).map(|(place, _)| place);
    let is_at_rest = rng.chance(50);
    if let Some(place) = fault.filter(|_| is_at_rest) {
        put_at_rest(rng, rows, pickups, place);
    }
    lay_times(rows, pickups, |row, pickup, fed| {
        if row.law != DEFINITE {
            let multiple = multiple(row, row.primary(pickup.pickup), row).max(STILL + 1);
            let any = time(row.law, multiple, rng.between(LEAST_MULTIPLIER, 400));
            row.floor = rng.pick(&[0, any, any - 1]).min(MOST_DELAY / 4);
        }
        let set = widest_timed(row, pickup, fed);
        let time = time_at(row, &set, row).unwrap_or(0);
        let is_too_long = fault == Some(row.row) && !is_at_rest;
        let below = time.saturating_sub(1);
        row.ceiling = if is_too_long { below } else { over(rng, time).min(MOST_DELAY) };
        set
    });
}

/// The current at which the row and the one that feeds it have so many thousandths of
/// their pickups or more.
pub fn lay_near_end(rows: &mut [Row], pickups: &[Settings], at: usize, multiple: u64) {
    let row = rows[at];
    let power = |at: usize| rows[at].primary(pickups[at].pickup).0 * rows[at].volts;
    let feeder = (row.feeds_from as usize).checked_sub(1).map(power);
    let most = feeder.filter(|feeder| *feeder > power(at)).unwrap_or(power(at));
    let current = (most * multiple).over(1_000 * row.volts).up();
    rows[at].near_greatest = current.clamp(1, MOST_CURRENT);
}

/// Works out the times of the rows, farthest first, as each is laid.
pub fn lay_times(
    rows: &mut [Row],
    pickups: &[Settings],
    mut lay: impl FnMut(&mut Row, &Settings, &[Fed]) -> Settings,
) {
    let mut settings = Vec::new();
    for at in 0..rows.len() {
        let fed = fed_rows(rows, &settings, rows[at].row);
        settings.push(lay(&mut rows[at], &pickups[at], &fed));
    }
}

/// The row's settings below the highest ceiling; where it has none as a curve, it is
/// made definite, and where it has none either way, they are its floor.
pub fn widest_timed(row: &mut Row, pickup: &Settings, fed: &[Fed]) -> Settings {
    row.ceiling = MOST_DELAY;
    let with = |row: &Row| Settings { law: row.law, ..*pickup };
    if timed(row, with(row), fed).is_err_and(|answer| answer.number == DELAY) {
        row.law = DEFINITE;
    }
    let floor = Settings { law: DEFINITE, ..*pickup }.timed(row.floor);
    timed(row, with(row), fed).unwrap_or(floor)
}

/// Puts an M of the row to at most 1.000, if it is a curve: its own, or its own at the
/// current of a row that it feeds.
fn put_at_rest(rng: &mut Rng, rows: &mut [Row], pickups: &[Settings], place: u64) {
    let row = rows[place as usize - 1];
    let of_row = |at: &Row| at.row == place || at.feeds_from == place;
    let currents: Vec<u64> = rows.iter().filter(|at| of_row(at)).map(|at| at.row).collect();
    let at = &mut rows[rng.pick(&currents) as usize - 1];
    let pickup = row.primary(pickups[place as usize - 1].pickup).0 * row.volts;
    let current = (pickup * rng.pick(&[1_000, 1_000, 999, 500])).over(1_000 * at.volts).down();
    if row.law != DEFINITE {
        at.near_greatest = current.clamp(1, MOST_CURRENT);
    }
}

/// A greatest current at the near end: moved a little or by a factor, or such that an
/// accepted list's pickup, the row's own or its feeder's, is just met or exceeded
/// [02 §3].
pub fn other_near_end(rng: &mut Rng, list: &[u64], row: &Row) -> u64 {
    let current = row.near_greatest.min(MOST_CURRENT);
    let factors = [500, 900, 999, 1_001, 1_100, 2_000, 10_000];
    let near = current * rng.pick(&factors) / 1_000 + rng.below(2);
    let whose = if rng.chance(50) { row.row } else { row.feeds_from };
    let pickup = |(rows, settings): (Vec<Row>, Vec<Settings>)| {
        let at = (whose as usize).checked_sub(1)?;
        let power = rows[at].primary(settings[at].pickup).0 * rows[at].volts;
        Some((power * rng.pick(&[1_000, 1_001, 1_005, 1_050, 20_000])).over(1_000 * row.volts).up())
    };
    let about = if row.is_in_range() { accepted(list).and_then(pickup) } else { None };
    about.filter(|_| rng.chance(40)).unwrap_or(near).clamp(1, MOST_CURRENT)
}

/// A value at or above the bound.
pub fn over(rng: &mut Rng, bound: u64) -> u64 {
    bound * rng.pick(&[100, 100, 105, 130, 200, 300]) / 100
}
