//! Inverse-time curves of IEC 60255-151 [02 §3]: M, the time of a curve, and the time
//! of a card row at a current. Exact but for the two roundings that the request names.

use crate::conditions::Fed;
use crate::current::{Fraction, Primary};
use crate::row::Row;
use crate::whole::Settings;

pub const DEFINITE: u64 = 0;
/// Very inverse.
pub const B: u64 = 1;
/// Extremely inverse.
pub const C: u64 = 2;
pub const LAWS: [u64; 3] = [DEFINITE, B, C];
pub const CURVES: [u64; 2] = [B, C];

/// Thousandths.
pub const LEAST_MULTIPLIER: u64 = 10;
pub const MOST_MULTIPLIER: u64 = 1_500;

/// The M in thousandths at which a curve has no time, nor below it.
pub const STILL: u64 = 1_000;
/// The M in thousandths that stands for every one above it.
pub const MOST_MULTIPLE: u64 = 20_000;

/// M of a row, as it is, at the greatest current at the near end of a row, itself or
/// another, referred by voltage.
pub fn exact_multiple(row: &Row, Primary(pickup): Primary, at: &Row) -> Fraction {
    Fraction::from(at.near_greatest) * at.volts / (pickup * row.volts)
}

/// The same, rounded down to thousandths, 20.000 above 20.
pub fn multiple(row: &Row, pickup: Primary, at: &Row) -> u64 {
    (exact_multiple(row, pickup, at) * 1_000).down().min(MOST_MULTIPLE)
}

/// ms of curve B or C at M above 1.000, rounded up once; M and multiplier in thousandths.
pub fn time(law: u64, multiple: u64, multiplier: u64) -> u64 {
    let seconds = match law {
        B => Fraction::from(27).over(2) / Fraction::from(multiple - 1_000).over(1_000),
        _ => Fraction::from(80) / Fraction::from(multiple * multiple - 1_000_000).over(1_000_000),
    };
    (seconds * 1_000 * multiplier).over(1_000).up()
}

/// The time of a curve where M and the multiplier are ones that a relay can have,
/// otherwise 0.
pub fn time_or_0(law: u64, multiple: u64, multiplier: u64) -> u64 {
    let is_time = CURVES.contains(&law)
        && (STILL + 1..=MOST_MULTIPLE).contains(&multiple)
        && (LEAST_MULTIPLIER..=MOST_MULTIPLIER).contains(&multiplier);
    if is_time {
        time(law, multiple, multiplier)
    } else {
        0
    }
}

/// ms that a row takes, by its card row, at the greatest current at the near end of a
/// row, itself or another; nothing where it is a curve and M is at most 1.000.
pub fn time_at(row: &Row, set: &Settings, at: &Row) -> Option<u64> {
    if set.law == DEFINITE {
        return Some(set.delay);
    }
    let multiple = multiple(row, row.primary(set.pickup), at);
    (multiple > STILL).then(|| time(set.law, multiple, set.multiplier))
}

/// One M of those that a row's time needs.
#[derive(Clone, Copy, Debug, PartialEq, Eq)]
pub struct Needed {
    /// The row whose M it is, and its law.
    pub of: u64,
    pub law: u64,
    /// The row at whose near-end current.
    pub at: u64,
    pub multiple: u64,
}

/// The M that a row needs, in the order in which they are tested: its own; then by fed
/// rows the fed row's, by the law that its card row has, and its own there.
pub fn needed(row: &Row, pickup: Primary, fed: &[Fed]) -> Vec<Needed> {
    let needed = |of: &Row, law: u64, pickup: Primary, at: &Row| {
        let multiple = multiple(of, pickup, at);
        (law != DEFINITE).then_some(Needed { of: of.row, law, at: at.row, multiple })
    };
    let own = |at: &Row| needed(row, row.law, pickup, at);
    let below =
        |fed: &Fed| [needed(&fed.row, fed.settings.law, fed.pickup(), &fed.row), own(&fed.row)];
    [own(row)].into_iter().chain(fed.iter().flat_map(below)).flatten().collect()
}

/// The row whose needed M is the first that is at most 1.000.
pub fn without_time(row: &Row, pickup: Primary, fed: &[Fed]) -> Option<u64> {
    needed(row, pickup, fed).iter().find(|of| of.multiple <= STILL).map(|of| of.of)
}
