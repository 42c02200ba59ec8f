//! The time of each curve at every M and with every multiplier that there is, by the two
//! inequalities that make it the exact time rounded up to a ms [02 §3]; and where it is 0.

use crate::boundary;
use crate::run::in_threads;
use second::curve::*;
use second::generate::Rng;
use std::sync::atomic::{AtomicU64, Ordering};

/// How many times were compared.
pub fn compare(seed: u64) -> Result<u64, String> {
    let next = AtomicU64::new(STILL + 1);
    let work = || {
        let mut compared = 0;
        loop {
            let multiple = next.fetch_add(1, Ordering::Relaxed);
            if multiple > MOST_MULTIPLE {
                return Ok(compared);
            }
            for law in CURVES {
                compared += with_every_multiplier(law, multiple)?;
            }
        }
    };
    let compared: Result<u64, String> = in_threads(&work).into_iter().sum();
    Ok(compared? + out_of_range(seed)?)
}

/// ms for each thousandth of the multiplier, as a fraction: 13.5 s / (M − 1) is
/// 13,500 / (M in thousandths − 1,000), and 80 s / (M² − 1) is 80,000,000 over
/// (M in thousandths)² − 1,000,000.
fn with_every_multiplier(law: u64, multiple: u64) -> Result<u64, String> {
    let (over, under) = match law {
        B => (13_500, multiple - 1_000),
        _ => (80_000_000, multiple * multiple - 1_000_000),
    };
    for multiplier in LEAST_MULTIPLIER..=MOST_MULTIPLIER {
        let given = boundary::time(law, multiple, multiplier);
        let (exact, given_under) = (over * multiplier, u128::from(given) * u128::from(under));
        let exact = u128::from(exact);
        if given_under < exact || given_under >= exact + u128::from(under) {
            return Err(format!("{given} ms: law {law}, M {multiple}, multiplier {multiplier}"));
        }
    }
    Ok(MOST_MULTIPLIER - LEAST_MULTIPLIER + 1)
}

/// Each argument at its bounds, past them and far out, with the others in range or not.
fn out_of_range(seed: u64) -> Result<u64, String> {
    const MAX: u64 = u64::MAX;
    let any = Rng::new(seed).any();
    let laws = [0, 1, 2, 3, 256, 257, 1 << 32 | 1, 1 << 63 | 2, MAX, any];
    let multiples =
        [0, 1, 999, 1_000, 1_001, 2_000, 19_999, 20_000, 20_001, 1 << 32 | 2_000, MAX, any];
    let multipliers = [0, 1, 9, 10, 11, 1_499, 1_500, 1_501, 1 << 32 | 100, MAX, any];
    let mut compared = 0;
    for (law, multiple) in laws.iter().flat_map(|&law| multiples.map(|multiple| (law, multiple))) {
        for multiplier in multipliers {
            let given = boundary::time(law, multiple, multiplier);
            let due = time_or_0(law, multiple, multiplier);
            if given != due {
                let inputs = format!("law {law}, M {multiple}, multiplier {multiplier}");
                return Err(format!("{given} ms, not {due}: {inputs}"));
            }
            compared += 1;
        }
    }
    Ok(compared)
}
