//! Differential cards and verdicts [02 §11].

use crate::answers::name_of;
use crate::boundary;
use crate::run::{Found, Group, Kind, Seen};
use crate::verdicts::{note_no_slope, note_slope, note_verdict};
use second::answer::{DONE, INPUT, SLOPE};
use second::differential::*;
use second::generate::differentials::*;
use second::generate::Rng;
use second::row::Bound;
use std::ops::RangeInclusive;

const PLACES: RangeInclusive<u64> = 1..=INPUTS.len() as u64;
const STARTS: u64 = INPUTS[0].greatest - INPUTS[0].least + 1;

pub const NUMBERS: Group = Group {
    name: "differentials by number and place",
    wanted: || PLACES.map(|place| (INPUT, place)).chain([(SLOPE, 0), (DONE, 0)]).collect(),
    label: |item| format!("{} at {}:", name_of(item.0), item.1),
};

/// The place, and its input below the range, at its least, its greatest, and above.
pub const BOUNDS: Group = Group {
    name: "inputs at the bounds",
    wanted: || {
        let sides = |place| bounds(place).into_iter().map(move |(side, _)| (place, side));
        PLACES.flat_map(sides).collect()
    },
    label: |item| {
        let side = ["below", "least", "greatest", "above"][item.1 as usize];
        format!("{} {side}:", INPUTS[item.0 as usize - 1].column)
    },
};

/// INPUT at that place over itself at a later one, or over SLOPE, which is at 0.
pub const PAIRS: Group = Group {
    name: "competing refusals of differentials",
    wanted: || {
        let under = |place| later(place).map(move |under| (place, under));
        PLACES.flat_map(under).chain(PLACES.map(|place| (place, 0))).collect()
    },
    label: |item| {
        let under = if item.1 == 0 { name_of(SLOPE).to_string() } else { item.1.to_string() };
        format!("{} over {under}:", item.0)
    },
};

pub const GROUPS: [Group; 3] = [NUMBERS, BOUNDS, PAIRS];

pub const KINDS: [Kind; 8] = [
    Kind { name: "documented differentials", cases: 1, case: documented },
    Kind { name: "every start and through", cases: STARTS, case: every_through },
    Kind { name: "every start, slope and restraint", cases: STARTS, case: every_restraint },
    Kind { name: "differentials at the bounds", cases: 2_000, case: at_bounds },
    Kind { name: "differentials in range", cases: 200_000, case: any_in_range },
    Kind { name: "differentials about the settings", cases: 200_000, case: near_settings },
    Kind { name: "differentials out of range", cases: 100_000, case: out_of_range },
    Kind { name: "differentials at fault twice", cases: 2_000, case: twice },
];

fn same(inputs: &Inputs, seen: &mut Seen) -> Result<DifferentialAnswer, String> {
    let (answer, expected) = (boundary::differential(inputs), differential(inputs));
    if answer != expected {
        return Err(format!("{answer:?}, not {expected:?}: {inputs:?}"));
    }
    seen.compared += 1;
    seen.note(&NUMBERS, (answer.number, answer.place));
    let given = (answer.number == DONE).then_some(answer.slope);
    if answer.number != INPUT {
        note_slope(inputs[0], inputs[3], given, seen);
    }
    if answer.number == SLOPE {
        note_no_slope(inputs, seen);
    }
    if let Some(slope) = given {
        seen.accepted += 1;
        note_verdict(inputs, slope, seen);
    }
    Ok(answer)
}

/// The answer is known beforehand.
fn due(inputs: &Inputs, due: [u64; 8], seen: &mut Seen) -> Found {
    let given = same(inputs, seen)?.numbers();
    if given != due {
        return Err(format!("{given:?}, not {due:?}: {inputs:?}"));
    }
    Ok(())
}

const fn refused(number: u64, place: u64) -> [u64; 8] {
    DifferentialAnswer::refused(number, place).numbers()
}

/// The paper's example, and on each side of what decides, worked out by hand.
fn documented(_: u64, _: u64, seen: &mut Seen) -> Found {
    let done = |[start, slope, blocking, cutoff]: [u64; 4], verdict| {
        [DONE, 0, start, 100, slope, blocking, cutoff, verdict]
    };
    let card = [30, 50, 200, 700];
    for (inputs, answer) in [
        ([30, 200, 700, 400, 0, 0, 0, 0], done(card, HOLD)),
        ([30, 200, 700, 400, 0, 0, 29, 100], done(card, HOLD)),
        ([30, 200, 700, 400, 0, 0, 30, 100], done(card, TRIP)),
        ([30, 200, 700, 400, 0, 0, 30, 101], done(card, HOLD)),
        ([30, 200, 700, 400, 0, 0, 31, 102], done(card, TRIP)),
        ([30, 200, 700, 400, 200, 200, 699, 0], done(card, BLOCKED)),
        ([30, 200, 700, 400, 199, 200, 699, 0], done(card, TRIP)),
        ([30, 200, 700, 400, 200, 199, 699, 1_438], done(card, TRIP)),
        ([30, 200, 700, 400, 200, 199, 699, 1_439], done(card, HOLD)),
        ([30, 200, 700, 400, 200, 200, 700, 10_000], done(card, TRIP)),
        ([31, 150, 650, 150, 0, 0, 0, 0], done([31, 70, 150, 650], HOLD)),
        ([30, 150, 650, 150, 0, 0, 0, 0], refused(SLOPE, 0)),
        ([44, 300, 1_200, 100, 0, 0, 0, 0], done([44, 20, 300, 1_200], HOLD)),
        ([43, 300, 1_200, 100, 0, 0, 0, 0], refused(SLOPE, 0)),
        ([43, 300, 1_200, 100, 0, 0, 0, 10_001], refused(INPUT, 8)),
    ] {
        due(&inputs, answer, seen)?;
    }
    Ok(())
}

fn start_of(count: u64) -> u64 {
    INPUTS[0].least + count % STARTS
}

/// The start by the count, with every through; the rest any.
fn every_through(count: u64, seed: u64, seen: &mut Seen) -> Found {
    let mut rng = Rng::new(seed);
    for through in INPUTS[3].least..=INPUTS[3].greatest {
        let mut inputs = in_range(rng.any());
        (inputs[0], inputs[3]) = (start_of(count), through);
        same(&inputs, seen)?;
    }
    Ok(())
}

/// The start by the count, with every slope that it can have and every restraint up
/// to where the characteristic has passed the cutoff, one side below blocking: the
/// least differential that trips, and one less.
fn every_restraint(count: u64, seed: u64, seen: &mut Seen) -> Found {
    let (start, mut rng) = (start_of(count), Rng::new(seed));
    for slope in SLOPES {
        let throughs = INPUTS[3].least..=INPUTS[3].greatest;
        let of_slope = |&through: &u64| least_slope(start, through) == Some(slope);
        let throughs: Vec<u64> = throughs.filter(of_slope).collect();
        if throughs.is_empty() {
            continue;
        }
        let [_, blocking, cutoff, ..] = in_range(rng.any());
        let sides = [blocking - 1, INPUTS[4].greatest];
        for restraint in INPUTS[7].least..=INPUTS[7].greatest {
            let [first, second] = rng.pick(&[sides, [sides[1], sides[0]]]);
            let (through, reached) = (rng.pick(&throughs), least_tripping(start, slope, restraint));
            let least = reached.min(cutoff);
            for (measured, verdict) in [(least - 1, HOLD), (least, TRIP)] {
                let inputs = [start, blocking, cutoff, through, first, second, measured, restraint];
                let answer = [DONE, 0, start, BEND, slope, blocking, cutoff, verdict];
                due(&inputs, answer, seen)?;
            }
            if reached > cutoff + 10 {
                break;
            }
        }
    }
    Ok(())
}

/// Side and value: one below the range if there is one, its ends, and one above.
fn bounds(place: u64) -> Vec<(u64, u64)> {
    let Bound { least, greatest, .. } = INPUTS[place as usize - 1];
    let below = least.checked_sub(1).map(|below| (0, below));
    below.into_iter().chain([(1, least), (2, greatest), (3, greatest + 1)]).collect()
}

fn at_bounds(_: u64, seed: u64, seen: &mut Seen) -> Found {
    let base = in_range(seed);
    for place in PLACES {
        for (side, value) in bounds(place) {
            let mut inputs = base;
            inputs[place as usize - 1] = value;
            if side == 0 || side == 3 {
                due(&inputs, refused(INPUT, place), seen)?;
            } else if same(&inputs, seen)?.number == INPUT {
                return Err(format!("{value} is in range at {place}: {inputs:?}"));
            }
            seen.note(&BOUNDS, (place, side));
        }
    }
    Ok(())
}

fn any_in_range(_: u64, seed: u64, seen: &mut Seen) -> Found {
    same(&in_range(seed), seen).map(|_| ())
}

fn near_settings(_: u64, seed: u64, seen: &mut Seen) -> Found {
    same(&about_settings(seed), seen).map(|_| ())
}

fn out_of_range(_: u64, seed: u64, seen: &mut Seen) -> Found {
    same(&damaged(seed), seen).map(|_| ())
}

fn later(place: u64) -> RangeInclusive<u64> {
    place + 1..=*PLACES.end()
}

/// Inputs that get SLOPE, each place out of range besides, and then each later one.
/// No slope fits a start up to 0.43 at through 1, nor at 0.99.
fn twice(_: u64, seed: u64, seen: &mut Seen) -> Found {
    let mut rng = Rng::new(seed);
    let mut base = in_range(rng.any());
    (base[0], base[3]) = (rng.between(20, 43), 100);
    due(&base, refused(SLOPE, 0), seen)?;
    for place in PLACES {
        let mut one = base;
        put_outside(&mut rng, &mut one, place);
        due(&one, refused(INPUT, place), seen)?;
        let [start, _, _, through, ..] = one;
        if start <= 43 && [99, 100].contains(&through) {
            seen.note(&PAIRS, (place, 0));
        }
        for under in later(place) {
            let mut two = one;
            put_outside(&mut rng, &mut two, under);
            due(&two, refused(INPUT, place), seen)?;
            seen.note(&PAIRS, (place, under));
        }
    }
    Ok(())
}
