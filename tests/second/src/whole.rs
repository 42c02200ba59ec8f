//! The whole calculation [01 §4, 02 §2, §3].
//!
//! P1, P2, D2, the floor and the cutoff's clearance stay true when the value
//! rises, P3, P4 and the ceiling when it falls. So the least value for the
//! first group is the one to test against the second. A curve's multiplier takes
//! a delay's place: its time rises with it.

pub use crate::answer::Answer;
use crate::answer::{CURVE, DELAY, OWN_ZONE, RANGE};
use crate::conditions::*;
use crate::current::Primary;
use crate::curve::{without_time, DEFINITE, LEAST_MULTIPLIER, MOST_MULTIPLIER};
use crate::row::{count_and_room, read_list, Row, CARD_NUMBERS, MOST_DELAY};
use std::ops::RangeInclusive;

/// A card row, its pickup and cutoff as the row's relay is keyed [02 §1]; cutoff 0
/// is not fitted. Of delay and multiplier the law reads one [02 §3].
#[derive(Clone, Copy, Debug, Default, PartialEq, Eq)]
pub struct Settings {
    pub pickup: u64,
    pub delay: u64,
    pub cutoff: u64,
    pub law: u64,
    pub multiplier: u64,
}

impl Settings {
    pub fn read(numbers: &[u64; CARD_NUMBERS]) -> Settings {
        let [pickup, delay, cutoff, law, multiplier] = *numbers;
        Settings { pickup, delay, cutoff, law, multiplier }
    }

    pub fn numbers(&self) -> [u64; CARD_NUMBERS] {
        [self.pickup, self.delay, self.cutoff, self.law, self.multiplier]
    }

    /// With that delay or multiplier, by the law; the other of the two is 0.
    pub fn timed(self, setting: u64) -> Settings {
        match self.law {
            DEFINITE => Settings { delay: setting, multiplier: 0, ..self },
            _ => Settings { delay: 0, multiplier: setting, ..self },
        }
    }
}

/// The delays or multipliers that a relay of that law offers.
pub fn offered(law: u64) -> RangeInclusive<u64> {
    match law {
        DEFINITE => 0..=MOST_DELAY,
        _ => LEAST_MULTIPLIER..=MOST_MULTIPLIER,
    }
}

/// Writes the card where the list is accepted.
pub fn whole(list: &[u64], card: &mut [u64]) -> Answer {
    match settle_list(list, card.len()) {
        Ok(settings) => {
            write_card(&settings, card);
            Answer::DONE
        }
        Err(refusal) => refusal,
    }
}

fn settle_list(list: &[u64], card_length: usize) -> Result<Vec<Settings>, Answer> {
    count_and_room(list.len(), card_length)?;
    let rows = read_list(list)?;
    let mut settings = Vec::new();
    for row in &rows {
        let fed = fed_rows(&rows, &settings, row.row);
        settings.push(settle(row, &fed)?);
    }
    Ok(settings)
}

/// Puts card rows into the lent card; numbers past them stay.
pub fn write_card(settings: &[Settings], card: &mut [u64]) {
    for (numbers, set) in card.chunks_exact_mut(CARD_NUMBERS).zip(settings) {
        numbers.copy_from_slice(&set.numbers());
    }
}

/// The rows that the row at `place` feeds directly, with their settings.
pub fn fed_rows(rows: &[Row], settings: &[Settings], place: u64) -> Vec<Fed> {
    let pairs = rows.iter().zip(settings);
    pairs
        .filter(|(row, _)| row.feeds_from == place)
        .map(|(&row, &settings)| Fed { row, settings })
        .collect()
}

/// The least settings of one row above the given fed rows, ascending, or why
/// there are none.
pub fn settle(row: &Row, fed: &[Fed]) -> Result<Settings, Answer> {
    let pickup = least_pickup(row, fed)?;
    let cutoff = fitted_cutoff(row).unwrap_or(0);
    timed(row, Settings { pickup, cutoff, law: row.law, ..Settings::default() }, fed)
}

/// With the least delay or multiplier at that pickup, or why there is none.
pub fn timed(row: &Row, set: Settings, fed: &[Fed]) -> Result<Settings, Answer> {
    match without_time(row, row.primary(set.pickup), fed) {
        Some(place) => Err(Answer::at(CURVE, place)),
        None => least_timed(row, set, fed).ok_or(Answer::at(DELAY, row.row)),
    }
}

fn least_pickup(row: &Row, fed: &[Fed]) -> Result<u64, Answer> {
    let least = least_available(row, |pickup| {
        returns_after_self_start(row, pickup).hold()
            && stays_clear_of_fed_rows(row, pickup, fed).all(|sides| sides.hold())
    });
    let least = least.ok_or(Answer::at(RANGE, row.row))?;
    let pickup = row.primary(least);
    if !sees_own_zone(row, pickup).hold() {
        return Err(Answer::at(OWN_ZONE, row.row));
    }
    let fails = |below: &&Fed| backs_up(row, pickup, &below.row).is_some_and(|s| !s.hold());
    match fed.iter().find(fails) {
        Some(below) => Err(Answer::backup(row.row, below.row.row)),
        None => Ok(least),
    }
}

/// With the least delay or multiplier that meets D1 and D2.
fn least_timed(row: &Row, set: Settings, fed: &[Fed]) -> Option<Settings> {
    let (first, last) = offered(set.law).into_inner();
    let timed = |step| set.timed(first + step);
    let least = least_step(last - first, |step| {
        let set = timed(step);
        let holds = not_below_floor(row, &set).hold()
            && not_below_motor_time(row, &set).is_none_or(|sides| sides.hold());
        holds && steps_above_fed_rows(row, &set, fed).all(|sides| sides.hold())
    });
    least.map(timed).filter(|set| not_above_ceiling(row, set).hold())
}

fn fitted_cutoff(row: &Row) -> Option<u64> {
    let least = least_available(row, |cutoff| cutoff_stays_clear(row, cutoff).hold());
    least.filter(|&cutoff| cutoff_sees_near(row, row.primary(cutoff)).hold())
}

/// The least of low, low + step, .. up to high for which `holds` in primary.
fn least_available(row: &Row, holds: impl Fn(Primary) -> bool) -> Option<u64> {
    let available = |step| row.low + step * row.step;
    let last = (row.high - row.low) / row.step;
    least_step(last, |step| holds(row.primary(available(step)))).map(available)
}

/// The least number from 0 to `last` where `holds`, which stays true once it is.
pub fn least_step(last: u64, holds: impl Fn(u64) -> bool) -> Option<u64> {
    let (mut from, mut to) = (0, last + 1);
    while from < to {
        let middle = (from + to) / 2;
        if holds(middle) {
            to = middle;
        } else {
            from = middle + 1;
        }
    }
    (from <= last).then_some(from)
}
