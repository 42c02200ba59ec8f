//! Inputs and slopes of the differential card [02 §11], worked out by hand on each
//! side of every bound.

use second::answer::{DONE, INPUT, SLOPE};
use second::differential::{differential, Inputs, HOLD};

/// Source document 004's settings with the paper's through: slope 50. Nothing
/// measured is near a setting.
const BASE: Inputs = [30, 200, 700, 400, 120, 80, 10, 90];

const START: usize = 1;
const THROUGH: usize = 4;
const FIRST: usize = 5;
const SECOND: usize = 6;
const DIFFERENTIAL: usize = 7;
const RESTRAINT: usize = 8;

/// Place and value.
type Change = (usize, u64);

fn with(changes: &[Change]) -> Inputs {
    let mut inputs = BASE;
    for &(place, value) in changes {
        inputs[place - 1] = value;
    }
    inputs
}

fn numbers(changes: &[Change]) -> [u64; 8] {
    differential(&with(changes)).numbers()
}

const fn refused(number: u64, place: u64) -> [u64; 8] {
    [number, place, 0, 0, 0, 0, 0, 0]
}

/// The slope, or nothing for SLOPE.
fn slope(start: u64, through: u64) -> Option<u64> {
    let [number, place, card_start, bend, slope, blocking, cutoff, verdict] =
        numbers(&[(START, start), (THROUGH, through)]);
    if number == DONE {
        let others = [place, card_start, bend, blocking, cutoff, verdict];
        assert_eq!(others, [0, start, 100, 200, 700, HOLD], "{start} {through}");
        return Some(slope);
    }
    assert_eq!((number, place, slope), (SLOPE, 0, 0), "{start} {through}");
    None
}

#[test]
fn slope_of_the_paper() {
    assert_eq!(numbers(&[]), [DONE, 0, 30, 100, 50, 200, 700, HOLD]);
}

#[test]
fn bounds_of_each_input() {
    let measured = [FIRST, SECOND, DIFFERENTIAL, RESTRAINT].map(|place| (place, 0, 10_000));
    let settings = [(START, 20, 100), (2, 150, 300), (3, 650, 1_200), (THROUGH, 100, 2_000)];
    for (place, least, greatest) in settings.into_iter().chain(measured) {
        // With start 50 some slope fits at through 100.
        let given = |value: u64| numbers(&[(START, 50), (place, value)]);
        for value in [least, greatest] {
            assert_eq!(given(value)[..2], [DONE, 0], "{value} at {place}");
        }
        let low = if least == 0 { vec![] } else { vec![0, least - 1] };
        let high = [greatest + 1, 1 << 32 | least, 1 << 63 | least, u64::MAX];
        for value in low.into_iter().chain(high) {
            assert_eq!(given(value), refused(INPUT, place as u64), "{value} at {place}");
        }
    }
}

/// The card has the settings as they came in.
#[test]
fn card_at_the_bounds() {
    let measured = [0, 0, 0, 0];
    for (settings, slope) in [
        ([20, 150, 650, 400], 60),
        ([100, 300, 1_200, 400], 30),
        ([50, 150, 1_200, 100], 20),
        ([50, 300, 650, 2_000], 50),
    ] {
        let [start, blocking, cutoff, _] = settings;
        let inputs: Inputs = [settings, measured].concat().try_into().unwrap();
        let card = [DONE, 0, start, 100, slope, blocking, cutoff, HOLD];
        assert_eq!(differential(&inputs).numbers(), card);
    }
}

#[test]
fn lowest_place_is_named() {
    for lower in 1..=8 {
        for higher in lower + 1..=8 {
            let both = [(lower, u64::MAX), (higher, u64::MAX)];
            assert_eq!(numbers(&both), refused(INPUT, lower as u64));
        }
    }
    assert_eq!(differential(&[0; 8]).numbers(), refused(INPUT, 1));
    assert_eq!(differential(&[u64::MAX; 8]).numbers(), refused(INPUT, 1));
}

/// At start 0.3 and through 1.5 none fits, nor with the start or the through just
/// too low.
#[test]
fn input_comes_before_slope() {
    let none_fits = [(START, 30), (THROUGH, 150)];
    assert_eq!(numbers(&none_fits), refused(SLOPE, 0));
    let low = [(START, 19), (2, 149), (3, 649), (THROUGH, 99)];
    let high = [FIRST, SECOND, DIFFERENTIAL, RESTRAINT].map(|place| (place, 10_001));
    for (place, value) in low.into_iter().chain(high) {
        let both = [&none_fits[..], &[(place, value)]].concat();
        assert_eq!(numbers(&both), refused(INPUT, place as u64));
    }
}

#[test]
fn slope_is_refused_whatever_is_measured() {
    for [first, second, measured, restraint] in [[0; 4], [10_000; 4], [300, 300, 1_200, 0]] {
        let inputs = [30, 200, 700, 150, first, second, measured, restraint];
        assert_eq!(differential(&inputs).numbers(), refused(SLOPE, 0));
    }
}

/// At through 1.5 a slope fits from start = 0.66 − slope / 2, at through 2 from
/// 0.88 − slope, so that 0.7 fits every start there.
#[test]
fn each_slope_by_the_start() {
    let at_150 = [(56, 20), (51, 30), (46, 40), (41, 50), (36, 60), (31, 70)];
    let at_200 = [(68, 20), (58, 30), (48, 40), (38, 50), (28, 60), (20, 70)];
    for (through, least_starts) in [(150, at_150), (200, at_200)] {
        let mut before = 100;
        for (least, fits) in least_starts {
            assert_eq!([before, least].map(|start| slope(start, through)), [Some(fits); 2]);
            before = least - 1;
        }
    }
    assert_eq!([30, 29, 20].map(|start| slope(start, 150)), [None; 3]);
}

/// Up to which through a slope is given. At start 0.2 and slope 0.7 the sides are
/// 0.844 and 0.8448 at through 1.92, 0.851 and 0.8492 at 1.93; at start 1 and slope
/// 0.4 they are equal at 15.
#[test]
fn each_slope_by_the_through() {
    for (start, steps) in [
        (20, [(192, None), (249, Some(70)), (499, Some(60)), (2_000, Some(50))]),
        (30, [(153, None), (187, Some(70)), (333, Some(60)), (2_000, Some(50))]),
        (43, [(103, None), (106, Some(70)), (116, Some(60)), (2_000, Some(50))]),
        (60, [(166, Some(20)), (214, Some(30)), (500, Some(40)), (2_000, Some(50))]),
        (100, [(333, Some(20)), (500, Some(30)), (1_500, Some(40)), (2_000, Some(50))]),
    ] {
        let mut first = 100;
        for (last, wanted) in steps {
            for through in [first, last] {
                assert_eq!(slope(start, through), wanted, "{start} {through}");
            }
            first = last + 1;
        }
    }
}

/// At through 1 all slopes fit from start 0.44, and none below it.
#[test]
fn slope_at_through_1() {
    assert_eq!([20, 43, 44, 100].map(|start| slope(start, 100)), [None, None, Some(20), Some(20)]);
}

/// By division: slope × (through − 1) is at least 0.44 × through − start.
#[test]
fn slope_by_division() {
    for start in 20..=100_u64 {
        for through in 101..=2_000_u64 {
            let asked = (44 * through).saturating_sub(100 * start);
            let least = asked.div_ceil(through - 100).next_multiple_of(10).max(20);
            let wanted = (least <= 70).then_some(least);
            assert_eq!(slope(start, through), wanted, "{start} {through}");
        }
    }
}
