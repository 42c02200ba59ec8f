//! Currents from the study package [01 §5, 02 §9].

use crate::boundary::{self, Reading, AMPERES, HALF, KILOAMPERES, PER_UNIT};
use crate::run::{Found, Group, Kind, Seen};
use second::answer::{DONE, STUDY};
use second::generate::Rng;
use second::row::MOST_CURRENT;
use second::study::{self, Current, StudyAnswer, Unit};

pub const PLACES: Group = Group {
    name: "studies by number and place",
    wanted: || vec![(DONE, 0), (STUDY, 0), (STUDY, 1), (STUDY, 2)],
    label: |item| format!("{} at {}:", item.0, item.1),
};

/// The place given, over the one that would be given without what is refused there.
pub const PAIRS: Group = Group {
    name: "competing places of STUDY",
    wanted: || vec![(0, 1), (0, 2), (1, 2)],
    label: |item| format!("{} over {}:", item.0, item.1),
};

/// Unit by number, 0 for any that there is not; accepted readings only but for that.
pub const UNITS: Group = Group {
    name: "units",
    wanted: || (0..=PER_UNIT).map(|unit| (unit, 0)).collect(),
    label: |item| ["none", "amperes", "kiloamperes", "per unit"][item.0 as usize].to_string(),
};

/// Upper side less lower, of both readings of a study.
pub const APART: Group = Group {
    name: "sides apart, of the greatest and of the least",
    wanted: || vec![(0, 0), (0, 1), (1, 0), (1, 1)],
    label: |item| format!("{} and {}:", item.0, item.1),
};

/// A current used that is 1 or 100,000,000, and the side that is not used.
pub const GREATEST_ENDS: Group = Group {
    name: "the greatest at its ends",
    wanted: || vec![(1, 0), (1, 1), (MOST_CURRENT, MOST_CURRENT - 1), (MOST_CURRENT, MOST_CURRENT)],
    label: |item| format!("{} with lower {}:", item.0, item.1),
};

pub const LEAST_ENDS: Group = Group {
    name: "the least at its ends",
    wanted: || vec![(1, 1), (1, 2), (MOST_CURRENT, MOST_CURRENT), (MOST_CURRENT, MOST_CURRENT + 1)],
    label: |item| format!("{} with upper {}:", item.0, item.1),
};

pub const GROUPS: [Group; 6] = [PLACES, PAIRS, UNITS, APART, GREATEST_ENDS, LEAST_ENDS];

pub const KINDS: [Kind; 7] = [
    Kind { name: "documented studies", cases: 1, case: documented },
    Kind { name: "every exponent and sign", cases: 512, case: exponent },
    Kind { name: "not a number", cases: 20_000, case: not_a_number },
    Kind { name: "singles about whole mA", cases: 100_000, case: about_whole },
    Kind { name: "readings about the ends", cases: 20_000, case: about_ends },
    Kind { name: "any studies", cases: 1_000_000, case: any_study },
    Kind { name: "units that there are not", cases: 20_000, case: no_unit },
];

const RATED: [u64; 9] = [1, 2, 3, 999, 1_000, 1_001, 16_777_217, MOST_CURRENT - 1, MOST_CURRENT];
const BAD_RATED: [u64; 4] = [0, MOST_CURRENT + 1, 1 << 32, u64::MAX];

/// Section 5 by the second program; a unit that there is not is STUDY at place 0.
fn expected(greatest: Reading, least: Reading) -> StudyAnswer {
    let read = |reading: Reading| {
        let unit = match reading.unit {
            AMPERES => Unit::Ampere,
            KILOAMPERES => Unit::Kiloampere,
            PER_UNIT => Unit::PerUnit,
            _ => return None,
        };
        Some(study::Reading { unit, value_bits: reading.bits, rated: reading.rated })
    };
    match (read(greatest), read(least)) {
        (Some(greatest), Some(least)) => study::study(greatest, least),
        _ => StudyAnswer::refused(0),
    }
}

fn same(greatest: Reading, least: Reading, seen: &mut Seen) -> Result<StudyAnswer, String> {
    let (answer, expected) = (boundary::study(greatest, least), expected(greatest, least));
    if answer != expected {
        return Err(format!("{answer:?}, not {expected:?}: {greatest:x?} {least:x?}"));
    }
    seen.compared += 1;
    seen.note(&PLACES, (answer.number, answer.place));
    for unit in [greatest.unit, least.unit] {
        let known = (AMPERES..=PER_UNIT).contains(&unit);
        if answer.number == DONE || !known {
            seen.note(&UNITS, (if known { unit } else { 0 }, 0));
        }
    }
    if answer.number == DONE {
        seen.accepted += 1;
        note_sides(answer.greatest, answer.least, seen);
    }
    Ok(answer)
}

fn note_sides(greatest: Current, least: Current, seen: &mut Seen) {
    seen.note(&APART, (greatest.upper - greatest.lower, least.upper - least.lower));
    for (group, used, other) in
        [(&GREATEST_ENDS, greatest.used, greatest.lower), (&LEAST_ENDS, least.used, least.upper)]
    {
        if [1, MOST_CURRENT].contains(&used) {
            seen.note(group, (used, other));
        }
    }
}

/// As the greatest, as the least, and as both.
fn both_ways(reading: Reading, seen: &mut Seen) -> Found {
    same(reading, HALF, seen)?;
    same(HALF, reading, seen)?;
    same(reading, reading, seen).map(|_| ())
}

/// The examples of section 5, by the document's own numbers, and an upper side above the
/// range. Of each reading: the mA used, its lower side, its upper side.
fn documented(_: u64, _: u64, seen: &mut Seen) -> Found {
    let ka = |x: f32| Reading { unit: KILOAMPERES, bits: x.to_bits(), rated: 0 };
    let smallest = Reading { bits: 1, ..HALF };
    let above = Reading { unit: PER_UNIT, bits: 1.5_f32.to_bits(), rated: 66_666_667 };
    let current = |[used, lower, upper]: [u64; 3]| Current { used, lower, upper };
    let done = |greatest, least| StudyAnswer::done(current(greatest), current(least));
    let cases = [
        (HALF, HALF, done([500; 3], [500; 3])),
        (ka(100.0), ka(100.0), done([100_000_000; 3], [100_000_000; 3])),
        (ka(100.0_f32.next_up()), HALF, StudyAnswer::refused(1)),
        (ka(0.1), ka(0.1), done([100_001, 100_000, 100_001], [100_000, 100_000, 100_001])),
        (smallest, HALF, done([1, 0, 1], [500; 3])),
        (HALF, smallest, StudyAnswer::refused(2)),
        (HALF, above, done([500; 3], [100_000_000, 100_000_000, 100_000_001])),
        (above, HALF, StudyAnswer::refused(1)),
    ];
    for (greatest, least, documented) in cases {
        let answer = same(greatest, least, seen)?;
        if answer != documented {
            return Err(format!("{answer:?}, not {documented:?}"));
        }
    }
    Ok(())
}

/// Every unit, with rated currents that are used, refused or not needed.
fn in_every_unit(bits: u32, rated: u64, seen: &mut Seen) -> Found {
    for unit in [AMPERES, KILOAMPERES] {
        for rated in [0, rated, u64::MAX] {
            both_ways(Reading { unit, bits, rated }, seen)?;
        }
    }
    let per_unit = RATED.into_iter().chain(BAD_RATED).chain([rated]);
    per_unit
        .map(|rated| Reading { unit: PER_UNIT, bits, rated })
        .try_for_each(|r| both_ways(r, seen))
}

/// Sign and exponent by the count, with fractions at their bounds and some others.
fn exponent(count: u64, seed: u64, seen: &mut Seen) -> Found {
    const FRACTIONS: [u32; 9] =
        [0, 1, 2, 0x3f_ffff, 0x40_0000, 0x40_0001, 0x4c_cccd, 0x7f_fffe, 0x7f_ffff];
    let mut rng = Rng::new(seed);
    let others = [(); 8].map(|_| rng.below(1 << 23) as u32);
    for fraction in FRACTIONS.into_iter().chain(others) {
        let rated = rng.between(1, MOST_CURRENT);
        in_every_unit((count as u32) << 23 | fraction, rated, seen)?;
    }
    Ok(())
}

fn not_a_number(count: u64, seed: u64, seen: &mut Seen) -> Found {
    let mut rng = Rng::new(seed);
    let payload = if count < 23 { 1 << count } else { rng.between(1, (1 << 23) - 1) as u32 };
    let bits = 0x7f80_0000 | payload | (rng.below(2) as u32) << 31;
    both_ways(Reading { unit: rng.between(AMPERES, PER_UNIT), bits, rated: 1_000 }, seen)
}

/// The singles about a whole number of mA, near the bounds as often as not.
fn about_whole(_: u64, seed: u64, seen: &mut Seen) -> Found {
    let mut rng = Rng::new(seed);
    let unit = rng.between(AMPERES, PER_UNIT);
    let (any, near) = (rng.between(1, MOST_CURRENT), rng.pick(&RATED));
    let rated = if rng.chance(50) { any } else { near };
    let scale = [1_000, 1_000_000, rated][unit as usize - 1];
    let wanted = match rng.below(4) {
        0 => rng.below(4),
        1 => MOST_CURRENT + 2 - rng.below(5),
        _ => rng.between(1, MOST_CURRENT),
    };
    let nearest = ((wanted as f64 / scale as f64) as f32).to_bits();
    let beside =
        (nearest.saturating_sub(2)..=nearest + 2).map(|bits| Reading { unit, bits, rated });
    beside.into_iter().try_for_each(|reading| both_ways(reading, seen))
}

/// x per unit of a rated current that brings it to 1 or 100,000,000 mA, or within x mA of
/// that. x has few bits; it is below 1 for the lower end, from 1 to below 2 for the upper.
/// Per unit, since in amperes and kiloamperes no other single is within 7 mA of the upper.
fn end_reading(rng: &mut Rng) -> Reading {
    let places = rng.below(7);
    let significand = rng.between(1 << places, (2 << places) - 1);
    let (end, halved) = if rng.chance(50) { (1, rng.between(1, 26)) } else { (MOST_CURRENT, 0) };
    let denominator = 1 << (places + halved);
    let bits = (significand as f32 / denominator as f32).to_bits();
    Reading { unit: PER_UNIT, bits, rated: end * denominator / significand + rng.below(2) }
}

/// At an end, as the greatest, the least and both, and beside another.
fn about_ends(_: u64, seed: u64, seen: &mut Seen) -> Found {
    let mut rng = Rng::new(seed);
    let (reading, other) = (end_reading(&mut rng), end_reading(&mut rng));
    both_ways(reading, seen)?;
    same(reading, other, seen).map(|_| ())
}

fn any_reading(rng: &mut Rng) -> Reading {
    let bits = if rng.chance(40) { rng.any() } else { rng.between(0x2f00_0000, 0x4d00_0000) };
    let (fits, bad) = (rng.between(1, MOST_CURRENT), rng.pick(&BAD_RATED));
    let rated = if rng.chance(85) { fits } else { bad };
    Reading { unit: rng.between(AMPERES, PER_UNIT), bits: bits as u32, rated }
}

/// Two readings that have nothing to do with each other, and what each alone would be given.
fn any_study(_: u64, seed: u64, seen: &mut Seen) -> Found {
    let mut rng = Rng::new(seed);
    let (greatest, least) = (any_reading(&mut rng), any_reading(&mut rng));
    let answer = same(greatest, least, seen)?;
    for alone in [expected(greatest, HALF), expected(HALF, least)] {
        if alone.number == STUDY && answer.place < alone.place {
            seen.note(&PAIRS, (answer.place, alone.place));
        }
    }
    Ok(())
}

/// A unit's number that stands for none, at one reading or both.
fn no_unit(_: u64, seed: u64, seen: &mut Seen) -> Found {
    let mut rng = Rng::new(seed);
    let (good, other) = (any_reading(&mut rng), any_reading(&mut rng));
    let any = rng.any().max(PER_UNIT + 1);
    let unit = rng.pick(&[0, 4, 5, 255, 256, 257, 1 << 32 | 1, 1 << 63 | 2, u64::MAX, any]);
    let bad = Reading { unit, ..other };
    same(bad, good, seen)?;
    same(good, bad, seen)?;
    same(bad, bad, seen).map(|_| ())
}
