//! Currents from the study package [01 §5, 02 §9], by exact whole-number arithmetic
//! on the bits of the single (IEEE 754 binary32).

use crate::answer::{DONE, STUDY};
use crate::row::MOST_CURRENT;

#[derive(Clone, Copy, Debug, PartialEq, Eq)]
pub enum Unit {
    Ampere,
    Kiloampere,
    PerUnit,
}

/// A single with its unit; the rated mA counts only per unit.
#[derive(Clone, Copy, Debug, PartialEq, Eq)]
pub struct Reading {
    pub unit: Unit,
    pub value_bits: u32,
    pub rated: u64,
}

/// A reading in whole mA: rounded as it is used [01 §5], and both its sides [02 §9],
/// the greatest not above it and the least not below it.
#[derive(Clone, Copy, Debug, PartialEq, Eq)]
pub struct Current {
    pub used: u64,
    pub lower: u64,
    pub upper: u64,
}

#[derive(Clone, Copy, Debug, PartialEq, Eq)]
pub struct StudyAnswer {
    pub number: u64,
    pub place: u64,
    pub greatest: Current,
    pub least: Current,
}

impl StudyAnswer {
    pub const fn done(greatest: Current, least: Current) -> StudyAnswer {
        StudyAnswer { number: DONE, place: 0, greatest, least }
    }

    pub const fn refused(place: u64) -> StudyAnswer {
        let none = Current { used: 0, lower: 0, upper: 0 };
        StudyAnswer { number: STUDY, place, greatest: none, least: none }
    }
}

#[derive(Clone, Copy)]
enum Rounding {
    Up,
    Down,
}

pub fn study(greatest: Reading, least: Reading) -> StudyAnswer {
    if !rated_is_usable(greatest) || !rated_is_usable(least) {
        return StudyAnswer::refused(0);
    }
    let Some(greatest) = milliamperes(greatest, Rounding::Up) else {
        return StudyAnswer::refused(1);
    };
    let Some(least) = milliamperes(least, Rounding::Down) else {
        return StudyAnswer::refused(2);
    };
    StudyAnswer::done(greatest, least)
}

fn rated_is_usable(reading: Reading) -> bool {
    reading.unit != Unit::PerUnit || (1..=MOST_CURRENT).contains(&reading.rated)
}

fn milliamperes(reading: Reading, rounding: Rounding) -> Option<Current> {
    let (significand, exponent) = parts(reading.value_bits)?;
    let scale = match reading.unit {
        Unit::Ampere => 1_000,
        Unit::Kiloampere => 1_000_000,
        Unit::PerUnit => reading.rated,
    };
    let scaled = u128::from(significand) * u128::from(scale);
    let whole = times_power_of_two(scaled, exponent, rounding)?;
    let used = u64::try_from(whole).ok()?;
    (1..=MOST_CURRENT).contains(&used).then(|| {
        let (lower, upper) = sides(scaled, exponent);
        Current { used, lower, upper }
    })
}

/// Significand and exponent of two, or nothing if not a number, infinite or negative.
fn parts(bits: u32) -> Option<(u32, i32)> {
    let negative = bits >> 31 == 1;
    let biased = (bits >> 23 & 0xff) as i32;
    let fraction = bits & 0x7f_ffff;
    let significand = if biased == 0 { fraction } else { fraction | 0x80_0000 };
    if biased == 0xff || (negative && significand != 0) {
        return None;
    }
    Some((significand, biased.max(1) - 150))
}

/// `scaled` is below 2^51; more than 64 binary places up is far out of range.
fn times_power_of_two(scaled: u128, exponent: i32, rounding: Rounding) -> Option<u128> {
    if exponent >= 0 {
        return (exponent <= 64).then(|| scaled << exponent);
    }
    let places = exponent.unsigned_abs();
    let down = scaled.checked_shr(places).unwrap_or(0);
    let exact = down.checked_shl(places).unwrap_or(0) == scaled;
    match rounding {
        Rounding::Up if !exact => Some(down + 1),
        _ => Some(down),
    }
}

/// Lower and upper by division, of a reading that is in range as it is used. `scaled` is
/// below 2^51, so every denominator from 2^64 on gives the same.
fn sides(scaled: u128, exponent: i32) -> (u64, u64) {
    let numerator = scaled << exponent.max(0);
    let denominator = 1 << (-exponent).clamp(0, 64);
    ((numerator / denominator) as u64, numerator.div_ceil(denominator) as u64)
}
