//! Inverse-time rows [02 §3], worked out by hand on each side of a bound.

mod common;

use second::answer::{Answer, CURVE, DELAY};
use second::curve::{time, time_or_0, B, C, DEFINITE};
use second::fast;
use second::row::{numbers_of, Row, CARD_NUMBERS, MOTOR};
use second::whole::whole;

/// 1.1 × 1,000 mA ask for a pickup of 1,100 mA.
fn row(law: u64, near_greatest: u64) -> Row {
    Row { law, near_greatest, ..common::row(1, 0, [0, 0], 1_000) }
}

/// Above such a row: 1.1 × 1,100 mA ask for 1,210 mA.
fn above(law: u64, near_greatest: u64) -> Row {
    Row { row: 2, work: 1, ..row(law, near_greatest) }
}

/// By both programs, the last row feeding all others: the answer, and of each row delay
/// and multiplier.
fn given(rows: &[Row]) -> (Answer, Vec<[u64; 2]>) {
    let (count, mut rows) = (rows.len(), rows.to_vec());
    for (at, row) in rows.iter_mut().enumerate() {
        (row.row, row.feeds_from) = (at as u64 + 1, if at + 1 == count { 0 } else { count as u64 });
    }
    let mut card = vec![0; CARD_NUMBERS * count];
    let mut fast_card = card.clone();
    let answer = whole(&numbers_of(&rows), &mut card);
    assert_eq!((answer, &card), (fast::whole(&numbers_of(&rows), &mut fast_card), &fast_card));
    let card = card.as_chunks::<CARD_NUMBERS>().0;
    if answer == Answer::DONE {
        assert!(card.iter().zip(&rows).all(|(set, row)| set[3] == row.law));
    }
    (answer, card.iter().map(|set| [set[1], set[4]]).collect())
}

fn done(rows: &[Row]) -> Vec<[u64; 2]> {
    let (answer, timed) = given(rows);
    assert_eq!(answer, Answer::DONE, "{rows:?}");
    timed
}

fn answer(rows: &[Row]) -> Answer {
    given(rows).0
}

/// The multiplier of the last row, a curve.
fn multiplier(rows: &[Row]) -> u64 {
    let [delay, multiplier] = done(rows)[rows.len() - 1];
    assert_eq!(delay, 0);
    multiplier
}

/// The delay of the last row, a definite one.
fn delay(rows: &[Row]) -> u64 {
    let [delay, multiplier] = done(rows)[rows.len() - 1];
    assert_eq!(multiplier, 0);
    delay
}

/// 13.5 / (M − 1) and 80 / (M² − 1) seconds times the multiplier, rounded up.
#[test]
fn times_of_the_curves() {
    for (law, multiple, multiplier, ms) in [
        (B, 2_000, 1_000, 13_500),
        (B, 1_001, 10, 135_000),
        (B, 1_001, 1_500, 20_250_000),
        // 14.5 is a second; one thousandth less is 13,500,000 / 13,499 = 1,000.07 ms.
        (B, 14_500, 1_000, 1_000),
        (B, 14_499, 1_000, 1_001),
        (B, 14_501, 1_000, 1_000),
        // 135,000 / 19,000 = 7.1, and 999 exactly.
        (B, 20_000, 10, 8),
        (B, 20_000, 1_406, 999),
        (B, 20_000, 1_407, 1_000),
        (B, 20_000, 1_500, 1_066),
        // 80,000,000 × 1,000 / 99,000,000 = 808.08; M = 3 and M = 9 come out even.
        (C, 10_000, 1_000, 809),
        (C, 3_000, 1_000, 10_000),
        (C, 3_001, 1_000, 9_993),
        (C, 9_000, 1_000, 1_000),
        (C, 1_001, 10, 399_801),
        (C, 1_001, 1_500, 59_970_015),
        (C, 20_000, 10, 3),
        (C, 20_000, 1_500, 301),
        (B, 2_000, 0, 0),
        (C, 2_000, 9, 240),
    ] {
        assert_eq!(time(law, multiple, multiplier), ms, "{law}, {multiple}, {multiplier}");
        let is_offered = multiplier >= 10;
        assert_eq!(time_or_0(law, multiple, multiplier), if is_offered { ms } else { 0 });
    }
}

#[test]
fn times_that_no_relay_has() {
    const MAX: u64 = u64::MAX;
    for (law, multiple, multiplier) in [
        (DEFINITE, 2_000, 1_000),
        (3, 2_000, 1_000),
        (MAX, 2_000, 1_000),
        (B, 1_000, 1_000),
        (B, 0, 1_000),
        (C, 20_001, 1_000),
        (C, MAX, 1_000),
        (B, 2_000, 9),
        (B, 2_000, 0),
        (C, 2_000, 1_501),
        (C, 2_000, MAX),
    ] {
        assert_eq!(time_or_0(law, multiple, multiplier), 0, "{law}, {multiple}, {multiplier}");
    }
    assert!(time_or_0(B, 1_001, 10) > 0 && time_or_0(C, 20_000, 1_500) > 0);
}

/// At M = 2 curve B has 13.5 ms for each thousandth: 37 are 499.5. At M = 3 curve C has 10.
#[test]
fn least_multiplier_for_a_floor() {
    let with = |row: Row, floor| multiplier(&[Row { floor, ..row }]);
    let (b, c) = (row(B, 2_200), row(C, 3_300));
    assert_eq!([0, 135, 136, 500, 501].map(|floor| with(b, floor)), [10, 10, 11, 37, 38]);
    assert_eq!([0, 100, 101, 300, 301].map(|floor| with(c, floor)), [10, 10, 11, 30, 31]);
    assert_eq!((with(b, 20_250), with(c, 15_000)), (1_500, 1_500));
    let too_long = |row: Row, floor| answer(&[Row { floor, ..row }]);
    assert_eq!([too_long(b, 20_251), too_long(c, 15_001)], [Answer::at(DELAY, 1); 2]);
}

/// D1 is of the time at the row's own near end, the least being that of 0.010.
#[test]
fn ceiling_and_motor_on_each_side() {
    let under = |row: Row, ceiling| answer(&[Row { ceiling, ..row }]);
    let refused = Answer::at(DELAY, 1);
    assert_eq!([135, 134].map(|of| under(row(B, 2_200), of)), [Answer::DONE, refused]);
    assert_eq!([100, 99].map(|of| under(row(C, 3_300), of)), [Answer::DONE, refused]);
    let between = |floor, ceiling| answer(&[Row { floor, ceiling, ..row(B, 2_200) }]);
    // Between 499.5 and 513 ms there is none.
    assert_eq!([between(501, 513), between(501, 512)], [Answer::DONE, refused]);
    // At M = 11: 74 are 99.9 ms, 73 are 98.55.
    let motor = Row { kind: MOTOR, ..row(B, 12_100) };
    assert_eq!((multiplier(&[motor]), multiplier(&[row(B, 12_100)])), (74, 10));
    assert_eq!([100, 99].map(|of| under(motor, of)), [Answer::DONE, refused]);
    assert_eq!(delay(&[Row { kind: MOTOR, ..row(DEFINITE, 1) }]), 100);
}

/// 1,101 / 1,100 is 1.000 rounded down, 1,102 / 1,100 is 1.001: 135 s at the least by B,
/// which no ceiling lets in. 1.002 is 67.5 s. By C, 1.003 is 133 s and 1.004 is 99.801 s.
#[test]
fn multiples_about_1() {
    let with = |law, near| answer(&[row(law, near)]);
    let (curve, too_long) = (Answer::at(CURVE, 1), Answer::at(DELAY, 1));
    for law in [B, C] {
        assert_eq!([1, 1_099, 1_100, 1_101].map(|near| with(law, near)), [curve; 4]);
        assert_eq!(with(law, 1_102), too_long);
    }
    assert_eq!([with(B, 1_103), with(C, 1_104)], [Answer::DONE, too_long]);
    assert_eq!(multiplier(&[Row { ceiling: 67_500, ..row(B, 1_103) }]), 10);
    let about_c = [99_801, 99_800].map(|ceiling| answer(&[Row { ceiling, ..row(C, 1_105) }]));
    assert_eq!(about_c, [Answer::DONE, too_long]);
    assert_eq!(with(DEFINITE, 1), Answer::DONE);
}

/// At 20.000, 1,406 thousandths of B are 999 ms exactly; at 19.999 they are 999.05.
#[test]
fn multiples_about_20() {
    let with = |near| multiplier(&[Row { floor: 1_000, ..row(B, near) }]);
    let nears = [21_999, 22_000, 22_001, 23_100, 100_000_000];
    assert_eq!(nears.map(with), [1_406, 1_407, 1_407, 1_407, 1_407]);
    // By C, 1,491 are 298.95 ms, and 1,500, the most, 300.75.
    let fits = |near, floor| answer(&[Row { floor, ..row(C, near) }]);
    assert_eq!(multiplier(&[Row { floor: 300, ..row(C, 22_000) }]), 1_492);
    assert_eq!([300, 301, 302].map(|floor| fits(100_000_000, floor).number), [0, 0, DELAY]);
}

/// At 2,420 mA the feeder's M is 2 and the fed row's 2.2, at 3,630 mA 3 and 3.3.
#[test]
fn d2_by_every_pair_of_laws() {
    let fed = |law, near| Row { floor: if law == DEFINITE { 200 } else { 0 }, ..row(law, near) };
    // Fed B at 2.2: 112.5 ms; C: 208.3. At 3.3: 58.7 and 80.9.
    for (law, near, delay) in [(DEFINITE, 2_420, 500), (B, 2_420, 413), (C, 2_420, 509)] {
        assert_eq!(self::delay(&[fed(law, near), above(DEFINITE, 1)]), delay);
    }
    // 13.5 ms for each thousandth: 37 are 499.5, 31 are 418.5, 38 are 513.
    for (law, wanted) in [(DEFINITE, 37), (B, 31), (C, 38)] {
        assert_eq!(multiplier(&[fed(law, 2_420), above(B, 12_100)]), wanted, "B above {law}");
    }
    // 10 ms for each thousandth.
    for (law, wanted) in [(DEFINITE, 50), (B, 36), (C, 39)] {
        assert_eq!(multiplier(&[fed(law, 3_630), above(C, 12_100)]), wanted, "C above {law}");
    }
}

/// D2 at the fed row's current, D1 at the own one, where 37 thousandths are 55.5 ms; one
/// ms more below asks for 38, the larger step for 52.
#[test]
fn d2_on_each_side() {
    let with = |floor, feeder: Row| [Row { floor, ..row(DEFINITE, 2_420) }, feeder];
    let feeder = above(B, 12_100);
    assert_eq!([199, 200, 201].map(|floor| multiplier(&with(floor, feeder))), [37, 37, 38]);
    let under = |ceiling| answer(&with(200, Row { ceiling, ..feeder }));
    assert_eq!([under(56), under(55)], [Answer::DONE, Answer::at(DELAY, 2)]);
    assert_eq!(multiplier(&with(200, Row { device: 2, ..feeder })), 52);
    // 20,250 ms are the most at M = 2.
    assert_eq!(multiplier(&with(19_950, feeder)), 1_500);
    assert_eq!(answer(&with(19_951, feeder)), Answer::at(DELAY, 2));
}

/// Of two fed rows each asks at its own current: 500 ms at M = 1.1 are 4 thousandths, so
/// 10; at M = 2, 300 ms are 23 and 500 ms 37.
#[test]
fn d2_with_every_fed_row() {
    let fed = |near, floor| Row { floor, ..row(DEFINITE, near) };
    // 11 × (1,100 + 1,000) / 10 = 2,310 mA.
    let of = |first, second| multiplier(&[first, second, above(B, 23_100)]);
    assert_eq!(of(fed(2_541, 200), fed(4_620, 0)), 23);
    assert_eq!(of(fed(2_541, 200), fed(4_620, 200)), 37);
    assert_eq!(of(fed(4_620, 200), fed(2_541, 0)), 37);
    assert_eq!(of(fed(2_541, 0), fed(2_541, 0)), 10);
}

/// A current of 2,420 mA at 400 V is 9,680 mA at 100 V, where 4,840 mA are keyed: M = 2.
#[test]
fn currents_referred_by_voltage() {
    let fed = |near| Row { volts: 400, floor: 200, ..row(DEFINITE, near) };
    let feeder = above(B, 100_000);
    // At 2,389 mA M is 1.974, where 36 are 498.97 ms; at 2,388 mA 1.973, and 499.49 ms.
    assert_eq!([2_420, 2_389, 2_388].map(|near| multiplier(&[fed(near), feeder])), [37, 37, 36]);
    let rests = [1_210, 1_211, 1_212].map(|near| answer(&[fed(near), feeder]));
    assert_eq!(rests, [Answer::at(CURVE, 2), Answer::at(CURVE, 2), Answer::DONE]);
}

/// Behind 7/5 A, 11 mA are 15.4 in the line: 30 mA are 1.948 times that, where 16 and 15
/// would say 1.875 and 2.000.
#[test]
fn pickup_of_a_secondary_row() {
    let row = |law, near_greatest| Row {
        law,
        near_greatest,
        floor: 500,
        ..common::row(1, 0, [7, 5], 14)
    };
    assert_eq!(multiplier(&[row(B, 30)]), 36);
    let rests = [15, 16].map(|near| answer(&[Row { floor: 0, ..row(B, near) }]));
    assert_eq!(rests, [Answer::at(CURVE, 1), Answer::DONE]);
    // 1.1 × 15.4 = 16.94 ask for 17 mA above; at 34 mA M is 2 there.
    let fed = Row { floor: 200, ..row(DEFINITE, 34) };
    let feeder = Row { work: 1, ..common::row(2, 0, [0, 0], 1) };
    assert_eq!(multiplier(&[fed, Row { law: B, near_greatest: 1_000, ..feeder }]), 37);
}
