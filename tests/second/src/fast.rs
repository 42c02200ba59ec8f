//! The whole calculation in one pass over the rows, in u64, as the baseline
//! for speed [01 §4, 02 §2, §3]. Each finished row adds to what its feeder must heed;
//! a curve row visits the rows that it feeds once more, for its M at their currents.
//!
//! A rated secondary is 1 or 5, so every primary pickup is a whole number of
//! fifths of a mA [02 §1]. Past the field tests 11 times the load of 255 rows and
//! the excess of one, in fifths, stays below 2^60, and by P1 a pickup is above its
//! row's work. A current times volts is at most 5 × 10^13, and a time 100,000 ms.

mod timed;

use crate::answer::{Answer, OWN_ZONE, RANGE};
use crate::conditions::step_between;
use crate::curve::DEFINITE;
use crate::row::*;
use timed::{current, least_delay, least_multiplier, Beside, Timed, NOTHING_BESIDE};

/// What the fed rows finished so far ask of their feeder.
#[derive(Clone, Copy)]
struct Below {
    /// Sum of work × volts, in fifths.
    load: u64,
    /// Greatest (pickup − work) × volts, in fifths.
    excess: u64,
    /// Least far × volts over backed rows.
    reach: u64,
    /// Greatest time with the step above it.
    time: u64,
    /// The last fed row of a curve row, 0 for none.
    last: usize,
}

const NOTHING_BELOW: Below = Below { load: 0, excess: 0, reach: u64::MAX / 50, time: 0, last: 0 };

pub fn whole(list: &[u64], card: &mut [u64]) -> Answer {
    let count = match count_and_room(list.len(), card.len()) {
        Ok(count) => count,
        Err(refusal) => return refusal,
    };
    let rows = list.as_chunks::<FIELDS>().0;
    if !fields_hold(rows) || !feeders_hold(rows) {
        return read_list(list).expect_err("a faulty field or feeder");
    }
    let mut below = vec![NOTHING_BELOW; count + 1];
    let mut beside = vec![NOTHING_BESIDE; count + 1];
    let mut settings = Vec::with_capacity(count);
    for (at, numbers) in rows.iter().enumerate() {
        let row = Row::read(numbers);
        let pickup = match least_pickup(&row, &below[at + 1]) {
            Ok(pickup) => pickup,
            Err(least) => return refusal(rows, &row, least),
        };
        let timed = match row.law {
            DEFINITE => least_delay(&row, below[at + 1].time),
            _ => least_multiplier(&row, pickup * fifths(&row), below[at + 1].last, &beside),
        };
        let Timed { delay, multiplier, time } = match timed {
            Ok(timed) => timed,
            Err(number) => return Answer::at(number, row.row),
        };
        if let Some(feeder) = feeder_of(rows, &row) {
            let of_feeder = &mut below[row.feeds_from as usize];
            heed(of_feeder, &feeder, &row, pickup, time);
            if feeder.law != DEFINITE {
                let time = time + step_between(&feeder, &row);
                beside[at + 1] = Beside { before: of_feeder.last, current: current(&row), time };
                of_feeder.last = at + 1;
            }
        }
        settings.push([pickup, delay, fitted_cutoff(&row), row.law, multiplier]);
    }
    let settled = settings.as_flattened();
    card[..settled.len()].copy_from_slice(settled);
    Answer::DONE
}

fn fields_hold(rows: &[[u64; FIELDS]]) -> bool {
    (1..).zip(rows).all(|(place, numbers)| {
        let row = Row::read(numbers);
        let mut hold = (row.row == place) & (row.low <= row.high);
        for (value, bound) in numbers.iter().zip(bounds_of(numbers)) {
            hold &= value.wrapping_sub(bound.least) <= bound.greatest - bound.least;
        }
        hold && ratio_holds(&row)
    })
}

/// What no bound says of the last two fields, and high in primary.
fn ratio_holds(row: &Row) -> bool {
    match row.rated_primary {
        0 => row.rated_secondary == 0,
        rated => {
            RATED_SECONDARIES.contains(&row.rated_secondary)
                && row.high * rated <= MOST_CURRENT * row.rated_secondary
        }
    }
}

/// How many fifths of a primary mA the row's available pickups count.
fn fifths(row: &Row) -> u64 {
    match row.rated_primary {
        0 => 5,
        rated if row.rated_secondary == 1 => 5 * rated,
        rated => rated,
    }
}

fn feeders_hold(rows: &[[u64; FIELDS]]) -> bool {
    let Some((last, fed)) = rows.split_last() else {
        return false;
    };
    let feeder_holds = |numbers: &[u64; FIELDS]| {
        let row = Row::read(numbers);
        let feeder = feeder_of(rows, &row);
        row.feeds_from > row.row && feeder.is_some_and(|feeder| feeder.kind != MOTOR)
    };
    Row::read(last).feeds_from == 0 && fed.iter().all(feeder_holds)
}

/// The feeding row, where it is one of the list.
fn feeder_of(rows: &[[u64; FIELDS]], row: &Row) -> Option<Row> {
    let at = (row.feeds_from as usize).checked_sub(1)?;
    rows.get(at).map(Row::read)
}

fn heed(below: &mut Below, feeder: &Row, row: &Row, pickup: u64, time: u64) {
    below.load += 5 * row.work * row.volts;
    below.excess = below.excess.max((pickup * fifths(row) - 5 * row.work) * row.volts);
    if row.backed == 1 {
        below.reach = below.reach.min(row.far * row.volts);
    }
    below.time = below.time.max(time + step_between(feeder, row));
}

/// P1 to P4, or else the least pickup for P1 and P2, if any; for the fed row of
/// greatest excess P2 asks most.
fn least_pickup(row: &Row, below: &Below) -> Result<u64, Option<u64>> {
    let unit = fifths(row);
    let own = (55 * row.selfstart * row.work).div_ceil(10 * row.return_factor * unit);
    let fed = (11 * (below.load + below.excess)).div_ceil(10 * row.volts * unit);
    let pickup = least_available(row, own.max(fed)).ok_or(None)?;
    let seen =
        50 * row.far >= 15 * pickup * unit && 50 * below.reach >= 12 * pickup * unit * row.volts;
    seen.then_some(pickup).ok_or(Some(pickup))
}

/// Why the least pickup for P1 and P2 does not fit; the fed rows are gone
/// through again only here.
fn refusal(rows: &[[u64; FIELDS]], row: &Row, least: Option<u64>) -> Answer {
    let Some(pickup) = least.map(|pickup| pickup * fifths(row)) else {
        return Answer::at(RANGE, row.row);
    };
    if 50 * row.far < 15 * pickup {
        return Answer::at(OWN_ZONE, row.row);
    }
    let unseen = |fed: &Row| {
        fed.feeds_from == row.row
            && fed.backed == 1
            && 50 * fed.far * fed.volts < 12 * pickup * row.volts
    };
    let fed = rows.iter().map(Row::read).find(unseen).expect("the row of least reach");
    Answer::backup(row.row, fed.row)
}

fn fitted_cutoff(row: &Row) -> u64 {
    let (unit, tenths) = (fifths(row), if row.kind == LINE { 12 } else { 20 });
    match least_available(row, (row.factor * row.clear).div_ceil(200 * unit)) {
        Some(cutoff) if 50 * row.near >= tenths * cutoff * unit => cutoff,
        _ => 0,
    }
}

/// The least available pickup at or above `bound`.
fn least_available(row: &Row, bound: u64) -> Option<u64> {
    if bound > row.high {
        return None;
    }
    let steps = bound.saturating_sub(row.low).div_ceil(row.step);
    let available = row.low + steps * row.step;
    (available <= row.high).then_some(available)
}
