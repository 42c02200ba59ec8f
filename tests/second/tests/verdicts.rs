//! Verdicts on a measured pair [02 §11], worked out by hand on each side of the
//! cutoff, of blocking and of the characteristic.

use second::answer::DONE;
use second::differential::{differential, BLOCKED, HOLD, TRIP};

/// The card of source document 004 with the paper's through: start, bend, slope,
/// blocking and cutoff.
const CARD: [u64; 5] = [30, 100, 50, 200, 700];

/// By the sides, the differential and the restraint.
fn verdict(first: u64, second: u64, measured: u64, restraint: u64) -> u64 {
    let inputs = [30, 200, 700, 400, first, second, measured, restraint];
    let [number, place, ref card @ .., verdict] = differential(&inputs).numbers();
    assert_eq!((number, place, *card), (DONE, 0, CARD), "{inputs:?}");
    verdict
}

/// At the cutoff it trips, whether blocked or below the characteristic, which is
/// 49.8 at a restraint of 100.
#[test]
fn cutoff_on_each_side() {
    for (first, second, restraint, below) in [
        (200, 200, 0, BLOCKED),
        (10_000, 10_000, 10_000, BLOCKED),
        (0, 0, 10_000, HOLD),
        (10_000, 199, 10_000, HOLD),
        (0, 0, 0, TRIP),
    ] {
        let at = |measured| verdict(first, second, measured, restraint);
        assert_eq!([699, 700, 701, 10_000].map(at), [below, TRIP, TRIP, TRIP]);
    }
}

/// Blocked where both sides are at blocking, above the characteristic and below it.
#[test]
fn blocking_on_each_side() {
    for (measured, otherwise) in [(699, TRIP), (30, TRIP), (29, HOLD), (0, HOLD)] {
        for (first, second, wanted) in [
            (200, 200, BLOCKED),
            (199, 200, otherwise),
            (200, 199, otherwise),
            (199, 199, otherwise),
            (10_000, 199, otherwise),
            (199, 10_000, otherwise),
            (0, 0, otherwise),
            (10_000, 10_000, BLOCKED),
        ] {
            assert_eq!(verdict(first, second, measured, 90), wanted, "{first} {second} {measured}");
        }
    }
}

/// 0.3 up to the bend; 0.305 at a restraint of 1.01, 0.31 at 1.02, 6.99 at 14.38 and
/// 6.995 at 14.39.
#[test]
fn characteristic_on_each_side() {
    for (restraint, least) in [
        (0, 30),
        (1, 30),
        (99, 30),
        (100, 30),
        (101, 31),
        (102, 31),
        (103, 32),
        (300, 130),
        (1_438, 699),
    ] {
        let at = |measured| verdict(120, 80, measured, restraint);
        assert_eq!([least - 1, least].map(at), [HOLD, TRIP], "{restraint}");
    }
    assert_eq!(verdict(120, 80, 699, 1_439), HOLD);
}

/// The least differential that trips at restraints from the bend on. At through 1.5
/// each start is the least for its slope, so that the characteristic is 0.66 there.
#[test]
fn characteristic_of_each_slope() {
    for (start, slope, at_101, at_110) in [
        (56, 20, 57, 58),
        (51, 30, 52, 54),
        (46, 40, 47, 50),
        (41, 50, 42, 46),
        (36, 60, 37, 42),
        (31, 70, 32, 38),
    ] {
        for (restraint, least) in [(100, start), (101, at_101), (110, at_110), (150, 66)] {
            let at = |measured| {
                let given = differential(&[start, 200, 700, 150, 0, 0, measured, restraint]);
                assert_eq!(given.slope, slope);
                given.verdict
            };
            assert_eq!([least - 1, least].map(at), [HOLD, TRIP], "{slope} {restraint}");
        }
    }
}
