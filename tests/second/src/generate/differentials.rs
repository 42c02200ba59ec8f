//! Inputs of the differential card [02 §11].

use super::Rng;
use crate::differential::{least_slope, Inputs, BEND, INPUTS};
use crate::row::Bound;

/// In range. Through and the measured four are low more often than not: above
/// that, nearly every slope is 50 and nearly every verdict the cutoff's.
pub fn in_range(seed: u64) -> Inputs {
    const LOW: Inputs = [100, 300, 1_200, 500, 400, 400, 1_300, 1_500];
    let mut rng = Rng::new(seed);
    std::array::from_fn(|at| {
        let Bound { least, greatest, .. } = INPUTS[at];
        let most = rng.pick(&[LOW[at], LOW[at], greatest]);
        rng.between(least, most)
    })
}

/// In range, the measured four mostly within one of a setting: the sides of
/// blocking, the differential of start, cutoff or characteristic, the restraint
/// of the bend.
pub fn about_settings(seed: u64) -> Inputs {
    let mut rng = Rng::new(seed);
    let [start, blocking, cutoff, through, first, second, differential, restraint] =
        in_range(rng.any());
    let mut about = |setting: u64, any: u64| {
        let beside = setting + rng.below(3) - 1;
        if rng.chance(75) {
            beside
        } else {
            any
        }
    };
    let (first, second) = (about(blocking, first), about(blocking, second));
    let restraint = about(BEND, restraint);
    let reached = least_tripping(start, least_slope(start, through).unwrap_or(0), restraint);
    let settings = [start, cutoff, reached].map(|setting| about(setting, differential));
    let differential = rng.pick(&settings);
    [start, blocking, cutoff, through, first, second, differential, restraint]
}

/// The least differential that reaches the characteristic.
pub fn least_tripping(start: u64, slope: u64, restraint: u64) -> u64 {
    start + (slope * restraint.saturating_sub(BEND)).div_ceil(100)
}

/// One to three inputs out of range.
pub fn damaged(seed: u64) -> Inputs {
    let mut rng = Rng::new(seed);
    let mut inputs = in_range(rng.any());
    for _ in 0..rng.between(1, 3) {
        let place = rng.between(1, INPUTS.len() as u64);
        put_outside(&mut rng, &mut inputs, place);
    }
    inputs
}

/// Takes the input at that place, from 1, out of its range: by one, by far, or by
/// a high bit.
pub fn put_outside(rng: &mut Rng, inputs: &mut Inputs, place: u64) {
    let at = place as usize - 1;
    let (value, Bound { least, greatest, .. }) = (inputs[at], INPUTS[at]);
    let low = [0, least.saturating_sub(1)];
    let any = rng.any().max(greatest + 1);
    let high = [greatest + 1, value | 1 << 32, value | 1 << 63, u64::MAX, any];
    inputs[at] = if least > 0 && rng.chance(50) { rng.pick(&low) } else { rng.pick(&high) };
}
