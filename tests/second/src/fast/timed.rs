//! Delays and multipliers of the linear version [01 §3, 02 §3].

use crate::answer::{CURVE, DELAY};
use crate::curve::{B, LEAST_MULTIPLIER, MOST_MULTIPLE, MOST_MULTIPLIER, STILL};
use crate::row::{Row, MOTOR};

/// A finished row that a curve row feeds.
#[derive(Clone, Copy)]
pub struct Beside {
    /// The one fed before it, 0 for none.
    pub before: usize,
    /// Its current × volts, in fifths.
    pub current: u64,
    /// Its time with the step above it.
    pub time: u64,
}

pub const NOTHING_BESIDE: Beside = Beside { before: 0, current: 0, time: 0 };

/// What is keyed, and the time at the row's own near end.
pub struct Timed {
    pub delay: u64,
    pub multiplier: u64,
    pub time: u64,
}

/// The floor of D1.
fn floor(row: &Row) -> u64 {
    let motor = if row.kind == MOTOR { 100 } else { 0 };
    row.floor.max(motor)
}

/// D1 and D2, or DELAY.
pub fn least_delay(row: &Row, asked: u64) -> Result<Timed, u64> {
    let delay = floor(row).max(asked);
    let timed = Timed { delay, multiplier: 0, time: delay };
    (delay <= row.ceiling).then_some(timed).ok_or(DELAY)
}

/// The greatest current at the near end × volts, in fifths.
pub fn current(row: &Row) -> u64 {
    5 * row.near_greatest * row.volts
}

/// D1 and D2 of a curve row, or CURVE or DELAY; the pickup in fifths. A fed row's own M
/// has been seen to be above 1.000 when that row was worked out.
pub fn least_multiplier(
    row: &Row,
    pickup: u64,
    last_fed: usize,
    beside: &[Beside],
) -> Result<Timed, u64> {
    let pickup = pickup * row.volts;
    let own = Slope::at(row, current(row), pickup)?;
    let mut multiplier = own.least_multiplier(floor(row)).max(LEAST_MULTIPLIER);
    let mut fed = last_fed;
    while fed != 0 {
        let Beside { before, current, time } = beside[fed];
        multiplier = multiplier.max(Slope::at(row, current, pickup)?.least_multiplier(time));
        fed = before;
    }
    let time = own.time(multiplier);
    let fits = multiplier <= MOST_MULTIPLIER && time <= row.ceiling;
    fits.then_some(Timed { delay: 0, multiplier, time }).ok_or(DELAY)
}

/// A curve at one M: ms for each thousandth of the multiplier, as a fraction.
struct Slope {
    over: u64,
    under: u64,
}

impl Slope {
    /// Of a current by a pickup, both × volts; CURVE where M is at most 1.000.
    fn at(row: &Row, current: u64, pickup: u64) -> Result<Slope, u64> {
        let multiple = (1_000 * current / pickup).min(MOST_MULTIPLE);
        if multiple <= STILL {
            return Err(CURVE);
        }
        Ok(match row.law {
            B => Slope { over: 13_500, under: multiple - 1_000 },
            _ => Slope { over: 80_000_000, under: multiple * multiple - 1_000_000 },
        })
    }

    fn time(&self, multiplier: u64) -> u64 {
        (self.over * multiplier).div_ceil(self.under)
    }

    /// The least for so many ms, or 0: the time is that or more exactly where the
    /// fraction is above one ms less.
    fn least_multiplier(&self, time: u64) -> u64 {
        time.checked_sub(1).map_or(0, |less| less * self.under / self.over + 1)
    }
}
