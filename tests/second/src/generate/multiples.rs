//! Lists in which one needed M stands at a bound [02 §3], with bounds on the times that
//! tell it from its neighbours where they can.

use super::{accepted, Rng};
use crate::conditions::{own_step, Fed};
use crate::curve::*;
use crate::row::*;
use crate::whole::{fed_rows, Settings};

/// The M in thousandths; the last stands for any above 20.
pub const TARGETS: [u64; 6] = [STILL, STILL + 1, 2_000, MOST_MULTIPLE - 1, MOST_MULTIPLE, ABOVE];
const ABOVE: u64 = MOST_MULTIPLE + 500;

/// Whose M it is and at which current: the row's own, the row's own at a fed row's, or
/// the fed row's.
#[derive(Clone, Copy, Debug, PartialEq, Eq)]
pub enum Which {
    Own,
    There,
    OfFed,
}

pub struct AtMultiple {
    pub list: Vec<u64>,
    /// The row that needs it, and the one at whose current it is.
    pub row: u64,
    pub at: u64,
}

/// Takes an accepted list to one in which a row of that law has that M, its own or its
/// own at a fed row's current. Nothing where no row will do.
pub fn at_multiple(
    list: &[u64],
    law: u64,
    which: Which,
    target: u64,
    seed: u64,
) -> Option<AtMultiple> {
    let (rows, settings) = accepted(list)?;
    let mut rng = Rng::new(seed);
    let start = rng.below(rows.len() as u64) as usize;
    (0..rows.len()).find_map(|k| {
        let at = (start + k) % rows.len();
        let fed = fed_rows(&rows, &settings, rows[at].row);
        let below = fed.get(rng.below(fed.len().max(1) as u64) as usize);
        if rows[at].law != law {
            return None;
        }
        match which {
            Which::Own => put_own(&mut rng, &rows, &settings, at, target),
            _ => put_there(&mut rng, &rows, &settings, at, below?, target),
        }
    })
}

/// The greatest near-end current of a row by which another, or itself, has that M.
pub fn near_end_at(row: &Row, pickup: u64, at: &Row, target: u64) -> Option<u64> {
    let power = row.primary(pickup).0 * row.volts;
    let current = (power * target).over(1_000 * at.volts).up();
    let near = Row { near_greatest: current, ..*at };
    let given = (exact_multiple(row, row.primary(pickup), &near) * 1_000).down();
    (given == target && current <= MOST_CURRENT).then_some(current)
}

/// A multiplier whose time at that M is not the one at the M after it.
fn telling_time(rng: &mut Rng, law: u64, target: u64) -> Option<u64> {
    let target = target.min(MOST_MULTIPLE);
    let is_telling = |time_here: u64, multiplier: u64| {
        time_here <= MOST_DELAY && time(law, target + 1, multiplier) < time_here
    };
    (target > STILL).then_some(())?;
    (0..20).find_map(|_| {
        let multiplier = rng.between(LEAST_MULTIPLIER, MOST_MULTIPLIER);
        let time = time(law, target, multiplier);
        is_telling(time, multiplier).then_some(time)
    })
}

/// Floor and ceiling are a time that only this M can have, by some multiplier.
fn put_own(
    rng: &mut Rng,
    rows: &[Row],
    settings: &[Settings],
    at: usize,
    target: u64,
) -> Option<AtMultiple> {
    let mut rows = rows.to_vec();
    let row = rows[at];
    let near_greatest = near_end_at(&row, settings[at].pickup, &row, target)?;
    let time = telling_time(rng, row.law, target).filter(|_| rng.chance(70));
    let (floor, ceiling) = time.map_or((0, MOST_DELAY), |time| (time, time));
    rows[at] = Row { near_greatest, floor, ceiling, ..row };
    Some(AtMultiple { list: numbers_of(&rows), row: row.row, at: row.row })
}

/// A definite fed row's delay is such that D2 asks for such a time, with the shortest step:
/// at M of 20 curve C has 301 ms at the most.
fn put_there(
    rng: &mut Rng,
    rows: &[Row],
    settings: &[Settings],
    at: usize,
    below: &Fed,
    target: u64,
) -> Option<AtMultiple> {
    const FAST: u64 = 3;
    let mut rows = rows.to_vec();
    let row = Row { device: FAST, ..rows[at] };
    let near_greatest = near_end_at(&row, settings[at].pickup, &below.row, target)?;
    let time = telling_time(rng, row.law, target).filter(|_| rng.chance(70));
    let delay = time.and_then(|time| time.checked_sub(own_step(&row)));
    let floor = delay.filter(|_| below.row.law == DEFINITE).unwrap_or(0);
    rows[at] = Row { floor: 0, ceiling: MOST_DELAY, ..row };
    let fed = &mut rows[below.row.row as usize - 1];
    *fed = Row { near_greatest, floor, ceiling: MOST_DELAY, device: FAST, ..*fed };
    Some(AtMultiple { list: numbers_of(&rows), row: row.row, at: below.row.row })
}
