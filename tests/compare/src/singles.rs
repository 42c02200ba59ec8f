//! Patterns of a single, all or every so many, at several scales and both ways,
//! with both sides, against doubles.
//!
//! A double holds each product exactly: a single has 24 significant bits and a
//! scale is below 2^27, so the product has at most 51 of a double's 53, and its
//! size stays between 2^-149 and 2^155. Cutting off its fraction is exact too.

use crate::boundary::{study, Reading, AMPERES, HALF, KILOAMPERES, PER_UNIT};
use crate::run::in_threads;
use second::row::MOST_CURRENT;
use second::study::{Current, StudyAnswer};
use std::sync::atomic::{AtomicU64, Ordering};

/// Unit and rated mA.
pub const SCALES: [(u64, u64); 7] = [
    (AMPERES, 0),
    (KILOAMPERES, 0),
    (PER_UNIT, 1),
    (PER_UNIT, 630_000),
    (PER_UNIT, 16_777_217),
    (PER_UNIT, MOST_CURRENT - 1),
    (PER_UNIT, MOST_CURRENT),
];

const OF_HALF: Current = Current { used: 500, lower: 500, upper: 500 };
const BLOCK: u64 = 1 << 24;
const PATTERNS: u64 = 1 << 32;

/// Every how many patterns, and the first of them, below the step.
#[derive(Clone, Copy)]
pub struct Part {
    pub step: u64,
    pub offset: u64,
}

pub const ALL: Part = Part { step: 1, offset: 0 };

impl Part {
    /// Every 31st, another one by each seed; every exponent is met with either sign.
    pub fn of_seed(seed: u64) -> Part {
        Part { step: 31, offset: seed % 31 }
    }

    /// Of the patterns from `first` to before `end`.
    fn within(self, first: u64, end: u64) -> impl Iterator<Item = u64> {
        let skipped = (self.offset + self.step - first % self.step) % self.step;
        (first + skipped..end).step_by(self.step as usize)
    }
}

/// The part's patterns at every scale; how many readings were compared.
pub fn compare(part: Part) -> Result<u64, String> {
    let next = AtomicU64::new(0);
    let blocks = PATTERNS / BLOCK * SCALES.len() as u64;
    let work = || {
        let mut compared = 0;
        loop {
            let block = next.fetch_add(1, Ordering::Relaxed);
            if block >= blocks {
                return Ok(compared);
            }
            compared += compare_block(block, part)?;
        }
    };
    in_threads(&work).into_iter().sum()
}

fn compare_block(block: u64, part: Part) -> Result<u64, String> {
    let (unit, rated) = SCALES[block as usize % SCALES.len()];
    let first = block / SCALES.len() as u64 * BLOCK;
    let mut compared = 0;
    for bits in part.within(first, first + BLOCK) {
        compare_single(Reading { unit, bits: bits as u32, rated })?;
        compared += 2;
    }
    Ok(compared)
}

fn compare_single(reading: Reading) -> Result<(), String> {
    let scale = match reading.unit {
        AMPERES => 1_000,
        KILOAMPERES => 1_000_000,
        _ => reading.rated,
    };
    let exact = f64::from(f32::from_bits(reading.bits)) * scale as f64;
    let allowed = |current: u64| exact >= 0.0 && (1..=MOST_CURRENT).contains(&current);
    // The conversion to a whole number cuts off, and stops at the ends of its range.
    let down = exact as u64;
    let up = down.saturating_add(u64::from((down as f64) < exact));
    let current = |used| Current { used, lower: down, upper: up };
    let (done, refused) = (StudyAnswer::done, StudyAnswer::refused);
    let of_up = if allowed(up) { done(current(up), OF_HALF) } else { refused(1) };
    let of_down = if allowed(down) { done(OF_HALF, current(down)) } else { refused(2) };
    for (given, wanted) in [(study(reading, HALF), of_up), (study(HALF, reading), of_down)] {
        if given != wanted {
            return Err(format!("{given:?}, not {wanted:?}: {reading:x?}"));
        }
    }
    Ok(())
}
