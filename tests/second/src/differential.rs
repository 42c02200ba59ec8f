//! The differential card of a transformer, the verdict on a measured pair, and
//! the text of `diffcard` [02 §11]. Inputs and answers are in hundredths.

use crate::answer::{DONE, INPUT, SLOPE};
use crate::conditions::Sides;
use crate::row::Bound;
use crate::text::{cells, numbers, print_refusal, read_lines};

/// The rated current.
const ONE: u64 = 100;
pub const BEND: u64 = ONE;
pub const SLOPES: [u64; 6] = [20, 30, 40, 50, 60, 70];

pub const TRIP: u64 = 1;
pub const HOLD: u64 = 2;
pub const BLOCKED: u64 = 3;

const fn input(column: &'static str, least: u64, greatest: u64) -> Bound {
    Bound { column, least, greatest }
}

/// By place, from 1.
pub const INPUTS: [Bound; 8] = [
    input("start", 20, 100),
    input("blocking", 150, 300),
    input("cutoff", 650, 1_200),
    input("through", 100, 2_000),
    input("first_side", 0, 10_000),
    input("second_side", 0, 10_000),
    input("differential", 0, 10_000),
    input("restraint", 0, 10_000),
];

pub type Inputs = [u64; INPUTS.len()];

#[derive(Clone, Copy, Debug, PartialEq, Eq)]
pub struct DifferentialAnswer {
    pub number: u64,
    pub place: u64,
    pub start: u64,
    pub bend: u64,
    pub slope: u64,
    pub blocking: u64,
    pub cutoff: u64,
    pub verdict: u64,
}

impl DifferentialAnswer {
    pub const fn refused(number: u64, place: u64) -> DifferentialAnswer {
        let (start, bend, slope, blocking, cutoff, verdict) = (0, 0, 0, 0, 0, 0);
        DifferentialAnswer { number, place, start, bend, slope, blocking, cutoff, verdict }
    }

    /// In the order of the text.
    pub const fn numbers(&self) -> [u64; 8] {
        let DifferentialAnswer { number, place, start, bend, slope, blocking, cutoff, verdict } =
            *self;
        [number, place, start, bend, slope, blocking, cutoff, verdict]
    }
}

pub fn differential(inputs: &Inputs) -> DifferentialAnswer {
    for (place, (&value, bound)) in (1..).zip(inputs.iter().zip(&INPUTS)) {
        if !bound.holds(value) {
            return DifferentialAnswer::refused(INPUT, place);
        }
    }
    let [start, blocking, cutoff, through, first, second, differential, restraint] = *inputs;
    let Some(slope) = least_slope(start, through) else {
        return DifferentialAnswer::refused(SLOPE, 0);
    };
    let verdict = if differential >= cutoff {
        TRIP
    } else if first >= blocking && second >= blocking {
        BLOCKED
    } else if characteristic(start, slope, differential, restraint).hold() {
        TRIP
    } else {
        HOLD
    };
    let (number, place, bend) = (DONE, 0, BEND);
    DifferentialAnswer { number, place, start, bend, slope, blocking, cutoff, verdict }
}

/// Nothing where none of the six fits.
pub fn least_slope(start: u64, through: u64) -> Option<u64> {
    SLOPES.into_iter().find(|&slope| slope_fits(start, slope, through).hold())
}

/// start + slope × (through − 1) and 1.1 × 0.4 × through, both times 10,000, for
/// inputs in range.
pub fn slope_fits(start: u64, slope: u64, through: u64) -> Sides<u128> {
    let greater = 100 * start + slope * (through - ONE);
    Sides { greater: greater.into(), lesser: (11 * 4 * through).into() }
}

/// The differential and the characteristic, both times 10,000, for inputs in range.
pub fn characteristic(start: u64, slope: u64, differential: u64, restraint: u64) -> Sides<u128> {
    let rise = if restraint <= BEND { 0 } else { slope * (restraint - ONE) };
    Sides { greater: (100 * differential).into(), lesser: (100 * start + rise).into() }
}

/// The bytes the program `diffcard` prints for the bytes it reads.
pub fn diffcard(text: &[u8]) -> Vec<u8> {
    match read_lines(text, &header(), |line| numbers(cells(line))) {
        Ok(lines) => print(&lines),
        Err(refusal) => print_refusal(refusal),
    }
}

fn header() -> String {
    INPUTS.map(|bound| bound.column).join(",")
}

fn print(lines: &[Inputs]) -> Vec<u8> {
    let mut printed = "number,place,start,bend,slope,blocking,cutoff,verdict\r\n".to_string();
    for inputs in lines {
        let numbers = differential(inputs).numbers().map(|number| number.to_string());
        printed += &numbers.join(",");
        printed += "\r\n";
    }
    printed.into_bytes()
}
