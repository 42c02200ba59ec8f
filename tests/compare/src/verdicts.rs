//! What decides a slope and a verdict, and which of it must turn up [02 §11].

use crate::answers::VERDICTS;
use crate::run::{Group, Item, Seen};
use second::conditions::Sides;
use second::differential::*;

pub const SLOPES_GIVEN: Group = Group {
    name: "slopes given",
    wanted: || SLOPES.map(|slope| (slope, 0)).to_vec(),
    label: |item| format!("{}:", item.0),
};

/// A slope and how its sides stand: the one given, and the last one too low for it.
pub const SLOPE_EDGES: Group = Group {
    name: "slopes about their inequality",
    wanted: || each(&SLOPES, &SIDES),
    label: |item| format!("{} {}:", item.0, side_name(item.1)),
};

/// What decides, and the restraint below, at or above the bend.
pub const DECIDED: Group = Group {
    name: "verdicts by what decides",
    wanted: || each(&[CUTOFF, BLOCKING, REACHED, NOT_REACHED], &[BELOW, AT, ABOVE]),
    label: |item| {
        let what = ["trip by cutoff", "blocked", "trip by characteristic", "hold"];
        format!("{}, restraint {} the bend:", what[item.0 as usize], side_name(item.1))
    },
};

/// The differential one below the cutoff or at it, and the verdict but for that.
pub const CUTOFF_EDGES: Group = Group {
    name: "differentials about the cutoff",
    wanted: || each(&[BELOW, AT], &VERDICTS.map(|verdict| verdict.0)),
    label: |item| format!("{} over {}:", side_name(item.0), verdict_name(item.1)),
};

/// First and second side each one below blocking or at it, below the cutoff, and
/// the verdict but for blocking.
pub const BLOCKING_EDGES: Group = Group {
    name: "sides about blocking",
    wanted: || each(&[0, 1, 2, 3], &[TRIP, HOLD]),
    label: |item| {
        let [first, second] = [item.0 / 2, item.0 % 2].map(side_name);
        format!("first {first}, second {second} over {}:", verdict_name(item.1))
    },
};

/// Which part of the characteristic decides, by its slope above the bend, and how
/// the differential stands to it.
pub const CHARACTERISTIC_EDGES: Group = Group {
    name: "differentials about the characteristic",
    wanted: || [each(&[BELOW, AT], &[BELOW, AT]), each(&SLOPES, &SIDES)].concat(),
    label: |item| {
        let part = match item.0 {
            BELOW | AT => format!("restraint {} the bend", side_name(item.0)),
            slope => format!("slope {slope}"),
        };
        format!("{part}, {} it:", side_name(item.1))
    },
};

/// SLOPE comes whatever was measured: at the cutoff, with both sides at blocking,
/// or neither.
pub const NO_SLOPE: Group = Group {
    name: "SLOPE by what was measured",
    wanted: || each(&[CUTOFF, BLOCKING, NEITHER], &[0]),
    label: |item| {
        let what = ["at the cutoff", "both sides at blocking", "neither"];
        format!("{}:", what[item.0 as usize])
    },
};

pub const GROUPS: [Group; 7] = [
    SLOPES_GIVEN,
    SLOPE_EDGES,
    DECIDED,
    CUTOFF_EDGES,
    BLOCKING_EDGES,
    CHARACTERISTIC_EDGES,
    NO_SLOPE,
];

const BELOW: u64 = 0;
const AT: u64 = 1;
const ABOVE: u64 = 2;
const SIDES: [u64; 3] = [BELOW, AT, ABOVE];

/// What decides.
const CUTOFF: u64 = 0;
const BLOCKING: u64 = 1;
const REACHED: u64 = 2;
const NOT_REACHED: u64 = 3;
const NEITHER: u64 = 2;

fn side_name(side: u64) -> &'static str {
    ["below", "at", "above"][side as usize]
}

fn verdict_name(verdict: u64) -> &'static str {
    VERDICTS[verdict as usize - 1].1
}

fn each(firsts: &[u64], seconds: &[u64]) -> Vec<Item> {
    firsts.iter().flat_map(|&first| seconds.iter().map(move |&second| (first, second))).collect()
}

/// Below where one hundredth more, in the start or the differential, would make
/// the condition hold; above where one less would break it.
fn edge(sides: &Sides<u128>) -> Option<u64> {
    match sides.greater as i128 - sides.lesser as i128 {
        -100..0 => Some(BELOW),
        0 => Some(AT),
        1..100 => Some(ABOVE),
        _ => None,
    }
}

/// Below where the measured one is one below the setting, at where it is that.
fn setting_edge(measured: u64, setting: u64) -> Option<u64> {
    [setting - 1, setting].iter().position(|&value| value == measured).map(|side| side as u64)
}

/// For a slope given, or nothing for SLOPE.
pub fn note_slope(start: u64, through: u64, given: Option<u64>, seen: &mut Seen) {
    let too_low = SLOPES.into_iter().take_while(|&slope| Some(slope) != given).last();
    for slope in too_low.into_iter().chain(given) {
        if let Some(side) = edge(&slope_fits(start, slope, through)) {
            seen.note(&SLOPE_EDGES, (slope, side));
        }
    }
    if let Some(slope) = given {
        seen.note(&SLOPES_GIVEN, (slope, 0));
    }
}

/// For inputs without a slope.
pub fn note_no_slope(inputs: &Inputs, seen: &mut Seen) {
    let [_, blocking, cutoff, _, first, second, differential, _] = *inputs;
    let measured = if differential >= cutoff {
        CUTOFF
    } else if first >= blocking && second >= blocking {
        BLOCKING
    } else {
        NEITHER
    };
    seen.note(&NO_SLOPE, (measured, 0));
}

/// For inputs with that slope.
pub fn note_verdict(inputs: &Inputs, slope: u64, seen: &mut Seen) {
    let [start, blocking, cutoff, _, first, second, differential, restraint] = *inputs;
    let sides = characteristic(start, slope, differential, restraint);
    let (reached, by_characteristic) =
        if sides.hold() { (REACHED, TRIP) } else { (NOT_REACHED, HOLD) };
    let blocked = first >= blocking && second >= blocking;
    let by_others = if blocked { BLOCKED } else { by_characteristic };
    let bend = restraint.cmp(&BEND) as i8 + 1;
    if let Some(side) = setting_edge(differential, cutoff) {
        seen.note(&CUTOFF_EDGES, (side, by_others));
    }
    if differential >= cutoff {
        return seen.note(&DECIDED, (CUTOFF, bend as u64));
    }
    if let [Some(first), Some(second)] = [first, second].map(|side| setting_edge(side, blocking)) {
        seen.note(&BLOCKING_EDGES, (2 * first + second, by_characteristic));
    }
    if blocked {
        return seen.note(&DECIDED, (BLOCKING, bend as u64));
    }
    seen.note(&DECIDED, (reached, bend as u64));
    if let Some(side) = edge(&sides) {
        let part = if restraint > BEND { slope } else { bend as u64 };
        seen.note(&CHARACTERISTIC_EDGES, (part, side));
    }
}
