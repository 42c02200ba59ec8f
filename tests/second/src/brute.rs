//! Settings found by trying every combination, for lists with few available
//! values; it tests the oracle itself [01 §3, §4, 02 §2, §3].

use crate::answer::{Answer, CURVE, DELAY, OWN_ZONE, RANGE};
use crate::conditions::*;
use crate::curve::{multiple, time_at, DEFINITE};
use crate::row::Row;
use crate::whole::{fed_rows, offered, Settings};

/// The refusal, or where done the card, of a list that passes FIELD and TREE.
///
/// The row refused is the first whose conditions, with those of all rows before
/// it, no combination meets. Where a row is a curve, the times are looked for at the
/// least pickups alone [02 §3].
pub fn search(rows: &[Row]) -> Result<Vec<Settings>, Answer> {
    let mut least = Vec::new();
    for (at, row) in rows.iter().enumerate() {
        let first = &rows[..=at];
        let mut pickups = combinations(first.iter().map(pickup_choices));
        pickups.retain(|card| meet_in_all_rows(first, card, pickup_holds));
        let cause = cause(row, &fed_rows(first, &least, row.row));
        assert_eq!(cause.is_some(), pickups.is_empty(), "the three causes together: {first:?}");
        if let Some(refusal) = cause {
            return Err(refusal);
        }
        if first.iter().any(|row| row.law != DEFINITE) {
            pickups = vec![least_card(first, &pickups)];
        }
        if let Some(place) = at_rest(first, &pickups[0], row) {
            return Err(Answer::at(CURVE, place));
        }
        let timed = |card: &Vec<Settings>| {
            combinations(first.iter().zip(card).map(|(row, set)| timed_choices(row, set)))
        };
        let mut cards: Vec<Vec<Settings>> = pickups.iter().flat_map(timed).collect();
        cards.retain(|card| meet_in_all_rows(first, card, time_holds));
        if cards.is_empty() {
            return Err(Answer::at(DELAY, row.row));
        }
        least = least_card(first, &cards);
    }
    Ok(least)
}

/// The first row whose M is at most 1.000, of those that the row's time needs; the rows
/// that it feeds have been through this themselves.
fn at_rest(rows: &[Row], card: &[Settings], row: &Row) -> Option<u64> {
    let pickup = row.primary(card[row.row as usize - 1].pickup);
    let currents = [row].into_iter().chain(rows.iter().filter(|fed| fed.feeds_from == row.row));
    let is_at_rest = currents.into_iter().any(|at| multiple(row, pickup, at) <= 1_000);
    (row.law != DEFINITE && is_at_rest).then_some(row.row)
}

/// Why no available pickup meets P1 to P4 above the fed rows, each cause by all
/// the pickups that meet P1 and P2 and not by the least; nothing where one does.
pub fn cause(row: &Row, fed: &[Fed]) -> Option<Answer> {
    let clear: Vec<u64> = available(row).filter(|&pickup| is_clear(row, pickup, fed)).collect();
    if clear.is_empty() {
        return Some(Answer::at(RANGE, row.row));
    }
    if clear.iter().all(|&pickup| !sees_own_zone(row, row.primary(pickup)).hold()) {
        return Some(Answer::at(OWN_ZONE, row.row));
    }
    let unseen = |below: &&Fed| clear.iter().all(|&pickup| !is_backed_up(row, pickup, below));
    fed.iter().find(unseen).map(|below| Answer::backup(row.row, below.row.row))
}

/// Whether some available pickup meets P1 to P4 above the fed rows.
pub fn some_pickup_fits(row: &Row, fed: &[Fed]) -> bool {
    pickup_choices(row).iter().any(|set| pickup_holds(row, set, fed))
}

fn is_clear(row: &Row, pickup: u64, fed: &[Fed]) -> bool {
    let pickup = row.primary(pickup);
    returns_after_self_start(row, pickup).hold()
        && stays_clear_of_fed_rows(row, pickup, fed).all(|sides| sides.hold())
}

fn is_backed_up(row: &Row, pickup: u64, below: &Fed) -> bool {
    backs_up(row, row.primary(pickup), &below.row).is_none_or(|sides| sides.hold())
}

/// The one card that none goes below in any row, pickups in primary [02 §1].
fn least_card(rows: &[Row], cards: &[Vec<Settings>]) -> Vec<Settings> {
    let is_below = |row: &Row, a: &Settings, b: &Settings| {
        row.primary(a.pickup) < row.primary(b.pickup)
            || a.delay < b.delay
            || a.multiplier < b.multiplier
    };
    let goes_below = |card: &[Settings], other: &[Settings]| {
        rows.iter().zip(card.iter().zip(other)).any(|(row, (a, b))| is_below(row, a, b))
    };
    let least = cards.iter().find(|card| !cards.iter().any(|other| goes_below(other, card)));
    least.expect("a least card").clone()
}

type Condition = fn(&Row, &Settings, &[Fed]) -> bool;

fn meet_in_all_rows(rows: &[Row], card: &[Settings], condition: Condition) -> bool {
    rows.iter().zip(card).all(|(row, set)| condition(row, set, &fed_rows(rows, card, row.row)))
}

fn pickup_holds(row: &Row, set: &Settings, fed: &[Fed]) -> bool {
    is_clear(row, set.pickup, fed)
        && sees_own_zone(row, row.primary(set.pickup)).hold()
        && fed.iter().all(|below| is_backed_up(row, set.pickup, below))
}

fn time_holds(row: &Row, set: &Settings, fed: &[Fed]) -> bool {
    not_below_floor(row, set).hold()
        && not_above_ceiling(row, set).hold()
        && not_below_motor_time(row, set).is_none_or(|sides| sides.hold())
        && steps_above_fed_rows(row, set, fed).all(|sides| sides.hold())
}

/// Every card with one of each row's choices.
fn combinations(of_rows: impl Iterator<Item = Vec<Settings>>) -> Vec<Vec<Settings>> {
    let mut cards = vec![Vec::new()];
    for choices in of_rows {
        cards = cards
            .iter()
            .flat_map(|card| choices.iter().map(|&choice| [card.as_slice(), &[choice]].concat()))
            .collect();
    }
    cards
}

/// Every available pickup.
fn pickup_choices(row: &Row) -> Vec<Settings> {
    let (cutoff, law) = (cutoff(row), row.law);
    let set = |pickup| Settings { pickup, cutoff, law, ..Settings::default() };
    available(row).map(set).collect()
}

/// Every delay or multiplier by which the row's time is from below the floor to above
/// the ceiling by one; those farther out break D1 alike.
fn timed_choices(row: &Row, set: &Settings) -> Vec<Settings> {
    let times = row.floor.saturating_sub(1)..=row.ceiling.max(row.floor) + 1;
    let is_near = |set: &Settings| time_at(row, set, row).is_some_and(|time| times.contains(&time));
    offered(row.law).map(|setting| set.timed(setting)).filter(is_near).collect()
}

fn available(row: &Row) -> impl Iterator<Item = u64> {
    (row.low..=row.high).step_by(row.step as usize)
}

fn cutoff(row: &Row) -> u64 {
    let clear = |&cutoff: &u64| cutoff_stays_clear(row, row.primary(cutoff)).hold();
    let least = available(row).find(clear);
    least.filter(|&cutoff| cutoff_sees_near(row, row.primary(cutoff)).hold()).unwrap_or(0)
}
