//! Rows keyed in secondary mA, among others [02 §1].

use super::lists::keyed_at;
use super::Rng;
use crate::current::{Primary, Ratio};
use crate::row::{Row, MOST_RATED, MOST_SECONDARY, RATED_SECONDARIES};

/// Which rows of a list are keyed in secondary mA.
#[derive(Clone, Copy, Debug, PartialEq, Eq)]
pub enum Keyed {
    Primary,
    Secondary,
    Mixed,
}

pub const KEYED: [Keyed; 3] = [Keyed::Primary, Keyed::Secondary, Keyed::Mixed];

impl Keyed {
    pub fn of_seed(seed: u64) -> Keyed {
        use Keyed::*;
        Rng::new(seed ^ 0x5ec0_da27).pick(&[Primary, Primary, Secondary, Mixed, Mixed])
    }

    pub fn is_secondary(self, rng: &mut Rng) -> bool {
        match self {
            Keyed::Primary => false,
            Keyed::Secondary => true,
            Keyed::Mixed => rng.chance(50),
        }
    }
}

/// As transformers are rated, and such that a pickup over 5 A is often no whole
/// number of primary mA.
const RATED_PRIMARIES: [u64; 24] = [
    1, 2, 3, 7, 11, 13, 33, 50, 75, 100, 150, 200, 300, 333, 400, 600, 999, 1_000, 1_200, 2_000,
    4_000, 8_000, 19_999, 20_000,
];

/// Gives a row drawn in primary mA a ratio, if there is one by which P1 and P2,
/// asking for so much pickup × volts, leave it a pickup.
pub fn key_in_secondary(rng: &mut Rng, row: &mut Row, asked: u64, is_long: bool) {
    let own = 11 * row.selfstart * row.work / (10 * row.return_factor);
    let least = own.max(asked / row.volts) + 1;
    row.rated_secondary = rng.pick(&RATED_SECONDARIES);
    let finest = (least * row.rated_secondary).div_ceil(300_000);
    let coarsest = (least * row.rated_secondary / 20).clamp(finest, finest.max(MOST_RATED));
    let fitting = RATED_PRIMARIES.into_iter().filter(|p| (finest..=coarsest).contains(p));
    let fitting: Vec<u64> = fitting.collect();
    row.rated_primary = if is_long || fitting.is_empty() { finest } else { rng.pick(&fitting) };
    let step = rng.pick(&[1, 1, 5, 10, 50, 100]);
    if row.rated_primary > MOST_RATED {
        (row.rated_primary, row.rated_secondary) = (0, 0);
        return;
    }
    row.high = row.most_high();
    row.low = keyed_at(row, row.low).clamp(1, row.high);
    row.step = if is_long { 1 } else { step };
}

/// The row keyed in primary mA where it was in secondary, or over another ratio,
/// with about the pickups that it had; at times with the same numbers.
pub fn keyed_otherwise(rng: &mut Rng, row: &Row) -> Row {
    let to_secondary = row.ratio().is_none() || rng.chance(50);
    let ratio = to_secondary.then(|| {
        let (secondary, Primary(high)) = (rng.pick(&RATED_SECONDARIES), row.primary(row.high));
        let finest = (high * secondary).over(MOST_SECONDARY).up();
        let primary = rng.pick(&[finest, finest, 2 * finest, 3 * finest, row.rated_primary]);
        Ratio { primary: primary.clamp(1, MOST_RATED), secondary }
    });
    let other = behind(row, ratio);
    match rng.chance(20) {
        true => Row { low: row.low, high: row.high, step: row.step, ..other },
        false => other,
    }
}

/// The row with about the pickups that it had, behind the ratio or in primary mA.
pub fn behind(row: &Row, ratio: Option<Ratio>) -> Row {
    let Ratio { primary, secondary } = ratio.unwrap_or(Ratio { primary: 0, secondary: 0 });
    let other = Row { rated_primary: primary, rated_secondary: secondary, ..*row };
    let keyed = |number: u64| other.keyed(row.primary(number)).clamp(1, other.most_high());
    Row { low: keyed(row.low), high: keyed(row.high), step: keyed(row.step), ..other }
}
