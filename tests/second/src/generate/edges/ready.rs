//! Rows made ready for a condition's edge, and the field to move there.

use super::Condition::{self, *};
use super::Stands::{self, *};
use crate::conditions::*;
use crate::current::{Fraction, Primary};
use crate::curve::{time_at, MOST_MULTIPLIER};
use crate::row::*;
use crate::whole::{fed_rows, least_step, offered, Settings};

type Field = fn(&mut Row) -> &mut u64;

/// A row by its place in the list, and a field of it.
type Moved = (usize, Field);

/// Rows made ready, and the field that is then moved by one.
pub struct Ready {
    rows: Vec<Row>,
    moved: usize,
    field: Field,
}

impl Ready {
    /// One below, as it is, and one above.
    pub fn neighbours(&self) -> [Vec<u64>; 3] {
        [-1, 0, 1].map(|difference| {
            let mut rows = self.rows.clone();
            let value = (self.field)(&mut rows[self.moved]);
            *value = value.wrapping_add_signed(difference);
            numbers_of(&rows)
        })
    }
}

/// Rows for a condition's edge at a row, if it will do; whether the condition then
/// stands as asked is not judged here.
pub fn ready(
    rows: &[Row],
    settings: &[Settings],
    at: usize,
    condition: Condition,
    stands: Stands,
) -> Option<Ready> {
    let set = settings[at];
    let mut rows = rows.to_vec();
    let fed = fed_rows(&rows, settings, rows[at].row);
    let row = &mut rows[at];
    let pickup = row.primary(set.pickup);
    let (moved, field): Moved = match condition {
        P1 | RangeP1 => (at, prepare_self_start(row, set.pickup, stands)?),
        P2 | RangeP2 => (at, prepare_fed_rows(row, set.pickup, &fed, stands)?),
        P3 => {
            row.far = stands.at_least((pickup.0 * 3).over(2))?;
            (at, |row| &mut row.far)
        }
        P4 => prepare_backup(&mut rows, at, pickup, &fed, stands)?,
        _ if condition.is_timed() && stands == Between => return None,
        Floor(_) => {
            row.floor = time_at(row, &set, row)?;
            (at, |row| &mut row.floor)
        }
        MostMultiplier(_) => {
            row.floor = time_at(row, &set.timed(MOST_MULTIPLIER), row)?;
            row.ceiling = MOST_DELAY.min(row.floor + 1);
            (at, |row| &mut row.floor)
        }
        MotorTime(_) => {
            (row.floor, row.ceiling) = (0, 100);
            (at, |row| &mut row.ceiling)
        }
        Ceiling(_) => {
            row.ceiling = time_at(row, &set, row)?;
            (at, |row| &mut row.ceiling)
        }
        D2(..) | D2Laws(..) => prepare_step(&mut rows, at, &set, &fed, condition)?,
        CutoffClear => (at, prepare_clear(row, set.cutoff, stands)?),
        CutoffNearLine | CutoffNearOther => (at, prepare_near(row, set.cutoff, condition, stands)?),
    };
    if matches!(condition, RangeP1 | RangeP2) {
        end_range(&mut rows[at]);
    }
    (*field(&mut rows[moved]) > 0).then_some(Ready { rows, moved, field })
}

impl Stands {
    /// The least whole number not below the bound, where the bound is whole or is not
    /// as asked.
    fn at_least(self, bound: Fraction) -> Option<u64> {
        (bound.is_whole() == (self == Equal)).then(|| bound.up())
    }

    /// The same from above.
    fn at_most(self, bound: Fraction) -> Option<u64> {
        (bound.is_whole() == (self == Equal)).then(|| bound.down())
    }
}

/// With return 880 and self-start 1,280 the sides are equal at pickup 8/5 × work,
/// which need not be whole. The pickup goes down to one that does.
fn prepare_self_start(row: &mut Row, pickup: u64, stands: Stands) -> Option<Field> {
    (row.return_factor, row.selfstart) = (880, 1_280);
    let work_at = |low: u64| stands.at_most((row.primary(low).0 * 5).over(8));
    let mut down = (1..=pickup).rev().take(8);
    (row.low, row.work) = down.find_map(|low| Some((low, work_at(low)?)))?;
    row.high = row.high.max(row.low + row.step);
    Some(|row| &mut row.work)
}

/// The volts are moved. For equality they are those of a fed row, or the ratio is
/// another, so that the pickup asked for may be one of the relay's.
fn prepare_fed_rows(row: &mut Row, pickup: u64, fed: &[Fed], stands: Stands) -> Option<Field> {
    let most = |a: Fraction, b| if a < b { b } else { a };
    let asked = asked_by_fed_rows(fed).reduce(most)?.over(10);
    match stands {
        Equal => {
            let volts = [row.volts, fed[0].row.volts, fed[fed.len() - 1].row.volts];
            let keyed = ratios_beside(row).into_iter().flat_map(|row| {
                volts.map(|volts| (Row { volts, ..row }, Primary(asked.over(volts))))
            });
            let is_whole = |(row, pickup): &(Row, Primary)| {
                row.primary(row.keyed(*pickup)) == *pickup && row.keyed(*pickup) < row.most_high()
            };
            let (found, pickup) = keyed.into_iter().find(is_whole)?;
            *row = Row { low: found.keyed(pickup), ..found };
            row.high = row.high.max(row.low + row.step).min(row.most_high());
        }
        Between => {
            row.volts = stands.at_least(asked / row.primary(pickup).0)?;
            row.low = pickup;
            row.high = row.high.max(row.low + row.step);
        }
    }
    if !returns_after_self_start(row, row.primary(row.low)).hold() {
        row.work = 1;
    }
    Some(|row| &mut row.volts)
}

/// The row, and if it is keyed in secondary mA the same with other ratios, by which
/// 11 times something may be whole.
fn ratios_beside(row: &Row) -> Vec<Row> {
    const OTHERS: [(u64, u64); 6] = [(11, 5), (11, 1), (1, 5), (1, 1), (33, 5), (77, 5)];
    let with = |&(rated_primary, rated_secondary)| Row { rated_primary, rated_secondary, ..*row };
    let others = OTHERS.iter().filter(|_| row.ratio().is_some()).map(with);
    [*row].into_iter().chain(others).collect()
}

/// Makes low the greatest available pickup, a few steps from a new low and as
/// far below high as it can be.
fn end_range(row: &mut Row) {
    row.high = (row.low + row.step - 1).min(row.most_high());
    row.low -= row.step * ((row.low - 1) / row.step).min(3);
}

/// One below, the fed row keeps its own zone, so that P4 is what refuses.
fn prepare_backup(
    rows: &mut [Row],
    at: usize,
    Primary(pickup): Primary,
    fed: &[Fed],
    stands: Stands,
) -> Option<Moved> {
    let asked = pickup * 12 * rows[at].volts;
    let (moved, far) = fed.iter().find_map(|below| {
        let far = stands.at_least(asked.over(10 * below.row.volts))?;
        let less = Row { far: far - 1, ..below.row };
        let keeps = sees_own_zone(&less, below.pickup()).hold();
        keeps.then_some((below.row.row as usize - 1, far))
    })?;
    (rows[moved].far, rows[moved].backed) = (far, 1);
    Some((moved, |row| &mut row.far))
}

/// The fed row's time goes up to what D2 leaves it, where it can have that and one ms
/// to either side. One above, it keeps room for its time, so that D2 is what refuses.
fn prepare_step(
    rows: &mut [Row],
    at: usize,
    set: &Settings,
    fed: &[Fed],
    condition: Condition,
) -> Option<Moved> {
    let row = rows[at];
    let own = |set: &Settings| time_at(&row, set, &row);
    let next = set.timed(set.delay + set.multiplier + 1);
    let left = |below: &Fed| {
        let time = time_at(&row, set, &below.row)?;
        let left = time.checked_sub(step_between(&row, &below.row))?;
        let fits = left > 0 && [left - 1, left, left + 1].iter().all(|&time| is_met(below, time));
        (condition.is_between(&row, &below.row) && fits).then_some(left)
    };
    let (below, time) = fed.iter().find_map(|below| Some((below, left(below)?)))?;
    let moved = below.row.row as usize - 1;
    rows[at].ceiling = own(set).filter(|&time| own(&next) > Some(time))?;
    rows[moved].floor = time;
    rows[moved].ceiling = rows[moved].ceiling.max(time + 1);
    Some((moved, |row| &mut row.floor))
}

/// Whether a delay or multiplier gives the fed row exactly so many ms.
fn is_met(below: &Fed, time: u64) -> bool {
    let (first, last) = offered(below.settings.law).into_inner();
    let with = |step| time_at(&below.row, &below.settings.timed(first + step), &below.row);
    let least = least_step(last - first, |step| with(step) >= Some(time));
    least.is_some_and(|step| with(step) == Some(time))
}

fn prepare_clear(row: &mut Row, cutoff: u64, stands: Stands) -> Option<Field> {
    let cutoff = row.primary(cutoff).0 * 1_000;
    let clear = |factor: u64| Some((factor, stands.at_most(cutoff.over(factor))?));
    let factors = [row.factor, 1_200, 1_250, 2_000, 1_000];
    (row.factor, row.clear) = factors.into_iter().find_map(clear)?;
    Some(|row| &mut row.clear)
}

fn prepare_near(row: &mut Row, cutoff: u64, condition: Condition, stands: Stands) -> Option<Field> {
    if (row.kind == LINE) != (condition == CutoffNearLine) {
        return None;
    }
    let tenths = if row.kind == LINE { 12 } else { 20 };
    row.near = stands.at_least((row.primary(cutoff).0 * tenths).over(10))?;
    Some(|row| &mut row.near)
}
