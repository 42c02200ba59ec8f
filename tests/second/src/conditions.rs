//! The conditions as section 3 writes them, each a pair of sides, apart from
//! how an answer is found [01 §3]. Pickups and cutoffs are primary and may be
//! fractions [02 §1]; all else is whole. D1 and D2 are of times, a delay being one
//! whatever the current [02 §3]; they are asked where every needed M is above 1.000.

use crate::current::{Fraction, Primary};
use crate::curve::time_at;
use crate::row::{Row, LINE, MOTOR};
use crate::whole::Settings;

/// A fed row with the settings it has.
pub struct Fed {
    pub row: Row,
    pub settings: Settings,
}

impl Fed {
    pub fn pickup(&self) -> Primary {
        self.row.primary(self.settings.pickup)
    }

    /// ms at the greatest current at its own near end.
    pub fn time(&self) -> u64 {
        time_with(&self.row, &self.settings, &self.row)
    }
}

/// The sides of one condition: it holds where `greater >= lesser`.
pub struct Sides<T = Fraction> {
    pub greater: T,
    pub lesser: T,
}

impl<T: PartialOrd> Sides<T> {
    pub fn hold(&self) -> bool {
        self.greater >= self.lesser
    }

    pub fn are_equal(&self) -> bool {
        self.greater == self.lesser
    }
}

fn whole(number: u64) -> Fraction {
    Fraction::from(number)
}

/// P1 [01 §3].
pub fn returns_after_self_start(row: &Row, Primary(pickup): Primary) -> Sides {
    Sides { greater: pickup * 10 * row.return_factor, lesser: whole(11) * row.selfstart * row.work }
}

/// P2, once for every fed row [01 §3].
pub fn stays_clear_of_fed_rows<'a>(
    row: &'a Row,
    Primary(pickup): Primary,
    fed: &'a [Fed],
) -> impl Iterator<Item = Sides> + 'a {
    asked_by_fed_rows(fed)
        .map(move |asked| Sides { greater: pickup * 10 * row.volts, lesser: asked })
}

/// The lesser side of P2.
pub fn asked_by_fed_rows(fed: &[Fed]) -> impl Iterator<Item = Fraction> + '_ {
    (0..fed.len()).map(move |j| {
        let mut asked = fed[j].pickup().0 * fed[j].row.volts;
        for (k, other) in fed.iter().enumerate() {
            if k != j {
                asked = asked + whole(other.row.work) * other.row.volts;
            }
        }
        asked * 11
    })
}

/// P3 [01 §3].
pub fn sees_own_zone(row: &Row, Primary(pickup): Primary) -> Sides {
    Sides { greater: whole(10) * row.far, lesser: pickup * 15 }
}

/// P4 for a fed row; nothing where it has backed 0 [01 §3].
pub fn backs_up(row: &Row, Primary(pickup): Primary, fed: &Row) -> Option<Sides> {
    (fed.backed == 1).then(|| Sides {
        greater: whole(10) * fed.far * fed.volts,
        lesser: pickup * 12 * row.volts,
    })
}

/// ms that a row takes with such settings at the near-end current of a row.
fn time_with(row: &Row, set: &Settings, at: &Row) -> u64 {
    time_at(row, set, at).expect("M above 1.000")
}

/// D1, floor [01 §3].
pub fn not_below_floor(row: &Row, set: &Settings) -> Sides {
    Sides { greater: whole(time_with(row, set, row)), lesser: whole(row.floor) }
}

/// D1, for a motor [01 §3].
pub fn not_below_motor_time(row: &Row, set: &Settings) -> Option<Sides> {
    let time = || whole(time_with(row, set, row));
    (row.kind == MOTOR).then(|| Sides { greater: time(), lesser: whole(100) })
}

/// D1, ceiling [01 §3].
pub fn not_above_ceiling(row: &Row, set: &Settings) -> Sides {
    Sides { greater: whole(row.ceiling), lesser: whole(time_with(row, set, row)) }
}

/// The step of a row by its device [01 §3 D2].
pub fn own_step(row: &Row) -> u64 {
    match row.device {
        1 => 300,
        2 => 500,
        _ => 200,
    }
}

/// The step between a row and one that it feeds, the larger of theirs [02 §5].
pub fn step_between(row: &Row, fed: &Row) -> u64 {
    own_step(row).max(own_step(fed))
}

/// D2, once for every fed row, at the greatest current at its near end [01 §3, 02 §3, §5].
pub fn steps_above_fed_rows<'a>(
    row: &'a Row,
    set: &'a Settings,
    fed: &'a [Fed],
) -> impl Iterator<Item = Sides> + 'a {
    fed.iter().map(move |below| Sides {
        greater: whole(time_with(row, set, &below.row)),
        lesser: whole(below.time()) + whole(step_between(row, &below.row)),
    })
}

/// Cutoff, the pickup it stays clear with [01 §3].
pub fn cutoff_stays_clear(row: &Row, Primary(cutoff): Primary) -> Sides {
    Sides { greater: cutoff * 1_000, lesser: whole(row.factor) * row.clear }
}

/// Cutoff, whether it is fitted at that pickup [01 §3].
pub fn cutoff_sees_near(row: &Row, Primary(cutoff): Primary) -> Sides {
    let tenths = if row.kind == LINE { 12 } else { 20 };
    Sides { greater: whole(10) * row.near, lesser: cutoff * tenths }
}
