//! Lists in which one condition stands exactly at equality [01 §3, 02 §2], or as
//! near to it as a fraction of a mA lets it [02 §1], each with its neighbours on
//! both sides. D1 and D2 are met to the ms by every law [02 §3].

mod ready;

use super::{accepted, Rng};
use crate::answer::{BACKUP, DELAY, OWN_ZONE, RANGE};
use crate::conditions::*;
use crate::current::Primary;
use crate::curve::{B, C, DEFINITE, MOST_MULTIPLIER};
use crate::row::*;
use crate::whole::{fed_rows, Settings};
use ready::ready;

#[derive(Clone, Copy, Debug, PartialEq, Eq)]
pub enum Condition {
    P1,
    P2,
    P3,
    P4,
    /// P1 at the greatest available pickup.
    RangeP1,
    /// P2 at the greatest available pickup.
    RangeP2,
    /// D1, of a row of that law [02 §3].
    Floor(u64),
    MotorTime(u64),
    Ceiling(u64),
    /// D1's floor at the greatest multiplier of that curve [02 §3].
    MostMultiplier(u64),
    /// `D2(d, e)`: of a row of device d above a fed row of device e [02 §5].
    D2(u64, u64),
    /// The same by their laws [02 §3].
    D2Laws(u64, u64),
    CutoffClear,
    CutoffNearLine,
    CutoffNearOther,
}

use Condition::*;

impl Condition {
    /// What the list is refused with one off equality, on one side of it;
    /// nothing for a condition that other settings can meet there.
    pub fn refusal(self) -> Option<u64> {
        match self {
            RangeP1 | RangeP2 => Some(RANGE),
            P3 => Some(OWN_ZONE),
            P4 => Some(BACKUP),
            MotorTime(_) | Ceiling(_) | MostMultiplier(_) | D2(..) | D2Laws(..) => Some(DELAY),
            P1 | P2 | Floor(_) | CutoffClear | CutoffNearLine | CutoffNearOther => None,
        }
    }

    /// Whether it is on times.
    pub fn is_timed(self) -> bool {
        let of_own = matches!(self, Floor(_) | MotorTime(_) | Ceiling(_) | MostMultiplier(_));
        of_own || matches!(self, D2(..) | D2Laws(..))
    }

    /// Of D2, whether it is the one between a row and one that it feeds.
    fn is_between(self, row: &Row, fed: &Row) -> bool {
        match self {
            D2(feeding, under) => (row.device, fed.device) == (feeding, under),
            D2Laws(feeding, under) => (row.law, fed.law) == (feeding, under),
            _ => false,
        }
    }
}

pub const CONDITIONS: [Condition; 38] = [
    P1,
    P2,
    P3,
    P4,
    RangeP1,
    RangeP2,
    Floor(DEFINITE),
    Floor(B),
    Floor(C),
    MotorTime(DEFINITE),
    MotorTime(B),
    MotorTime(C),
    Ceiling(DEFINITE),
    Ceiling(B),
    Ceiling(C),
    MostMultiplier(B),
    MostMultiplier(C),
    D2(1, 1),
    D2(1, 2),
    D2(1, 3),
    D2(2, 1),
    D2(2, 2),
    D2(2, 3),
    D2(3, 1),
    D2(3, 2),
    D2(3, 3),
    D2Laws(DEFINITE, DEFINITE),
    D2Laws(DEFINITE, B),
    D2Laws(DEFINITE, C),
    D2Laws(B, DEFINITE),
    D2Laws(B, B),
    D2Laws(B, C),
    D2Laws(C, DEFINITE),
    D2Laws(C, B),
    D2Laws(C, C),
    CutoffClear,
    CutoffNearLine,
    CutoffNearOther,
];

/// How the condition stands in the list in the middle.
#[derive(Clone, Copy, Debug, PartialEq, Eq)]
pub enum Stands {
    /// Its sides are equal.
    Equal,
    /// It holds, one off it does not, and a primary current in it is no whole number
    /// of mA [02 §1].
    Between,
}

use Stands::*;

/// One field one below, at, and one above the value where the condition stands so.
/// The list in the middle is accepted.
pub struct Edge {
    pub lists: [Vec<u64>; 3],
    /// Whether the row that the condition is of is keyed in secondary mA.
    pub is_secondary: bool,
    /// Of P2, whether the fed row is, by which it stands so.
    pub is_fed_secondary: bool,
    /// Whether every primary current in it is a whole number of mA.
    pub is_whole: bool,
}

/// Takes an accepted list to the condition's edge at some row. Nothing where no row
/// of the list will do.
pub fn at_edge(list: &[u64], condition: Condition, stands: Stands, seed: u64) -> Option<Edge> {
    let (rows, settings) = accepted(list)?;
    let start = Rng::new(seed).below(rows.len() as u64) as usize;
    (0..rows.len()).find_map(|k| {
        let at = (start + k) % rows.len();
        let lists = ready(&rows, &settings, at, condition, stands)?.neighbours();
        let (rows, settings) = accepted(&lists[1])?;
        let of = |rows: &[Row]| judged_at(rows, &settings, at, condition);
        let one_off = [0, 2].map(|side| of(&rows_of(&lists[side])));
        let fails = |by: usize| one_off.iter().any(|judged| !judged[by].sides.hold());
        let found = of(&rows).into_iter().enumerate().find(|(by, judged)| match stands {
            Equal => judged.sides.are_equal(),
            Between => judged.sides.hold() && !judged.is_whole && fails(*by),
        });
        let is_secondary = rows[at].ratio().is_some();
        found.map(|(_, Judged { is_whole, is_fed_secondary, .. })| Edge {
            lists,
            is_secondary,
            is_fed_secondary,
            is_whole,
        })
    })
}

fn rows_of(list: &[u64]) -> Vec<Row> {
    list.as_chunks().0.iter().map(Row::read).collect()
}

/// A condition as it stands somewhere, and whether all currents in it are whole.
struct Judged {
    sides: Sides,
    is_whole: bool,
    is_fed_secondary: bool,
}

fn is_whole(Primary(current): Primary) -> bool {
    current.is_whole()
}

/// The condition in the row, for P2, P4 and D2 with each fed row.
fn judged_at(rows: &[Row], settings: &[Settings], at: usize, condition: Condition) -> Vec<Judged> {
    let (row, set) = (&rows[at], &settings[at]);
    let (pickup, cutoff) = (row.primary(set.pickup), row.primary(set.cutoff));
    let mut fed = fed_rows(rows, settings, row.row);
    let of =
        |sides, current| Judged { sides, is_whole: is_whole(current), is_fed_secondary: false };
    let timed = |sides| Judged { sides, is_whole: true, is_fed_secondary: false };
    match condition {
        P1 | RangeP1 => vec![of(returns_after_self_start(row, pickup), pickup)],
        P2 | RangeP2 => {
            let sides = stays_clear_of_fed_rows(row, pickup, &fed);
            let judged = sides.zip(&fed).map(|(sides, below)| Judged {
                sides,
                is_whole: is_whole(pickup) && is_whole(below.pickup()),
                is_fed_secondary: below.row.ratio().is_some(),
            });
            judged.collect()
        }
        P3 => vec![of(sees_own_zone(row, pickup), pickup)],
        P4 => {
            let sides = fed.iter().filter_map(|below| backs_up(row, pickup, &below.row));
            sides.map(|sides| of(sides, pickup)).collect()
        }
        Floor(law) | MotorTime(law) | Ceiling(law) | MostMultiplier(law) if law != row.law => {
            Vec::new()
        }
        MostMultiplier(_) if set.multiplier != MOST_MULTIPLIER => Vec::new(),
        Floor(_) | MostMultiplier(_) => vec![timed(not_below_floor(row, set))],
        MotorTime(_) => not_below_motor_time(row, set).into_iter().map(timed).collect(),
        Ceiling(_) => vec![timed(not_above_ceiling(row, set))],
        D2(..) | D2Laws(..) => {
            fed.retain(|below| condition.is_between(row, &below.row));
            steps_above_fed_rows(row, set, &fed).map(timed).collect()
        }
        CutoffClear | CutoffNearLine | CutoffNearOther if set.cutoff == 0 => Vec::new(),
        CutoffClear => vec![of(cutoff_stays_clear(row, cutoff), cutoff)],
        CutoffNearLine | CutoffNearOther => vec![of(cutoff_sees_near(row, cutoff), cutoff)],
    }
}
