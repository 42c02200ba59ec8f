//! Section 3's conditions for rows keyed in secondary mA [02 §1], at equality and
//! on each side of it, worked out by hand. Behind 7/5 A a secondary mA is 1.4 mA, so
//! that 11 of them are 15.4, where rounding up or down gives another answer.

mod common;

use second::answer::{Answer, OWN_ZONE, RANGE};
use second::fast;
use second::row::{numbers_of, Row, CARD_NUMBERS, LINE, MOTOR, TRANSFORMER};
use second::whole::whole;

/// A row by itself, as `common` has it.
fn row(rated_primary: u64, rated_secondary: u64, work: u64) -> Row {
    common::row(1, 0, [rated_primary, rated_secondary], work)
}

/// Answer, pickups and cutoffs, the last row fed by the source and feeding the others.
fn given(rows: &[Row]) -> (Answer, Vec<u64>, Vec<u64>) {
    let (count, mut rows) = (rows.len(), rows.to_vec());
    for (at, row) in rows.iter_mut().enumerate() {
        (row.row, row.feeds_from) = (at as u64 + 1, if at + 1 == count { 0 } else { count as u64 });
    }
    let (mut card, mut fast_card) = (vec![0; CARD_NUMBERS * count], vec![0; CARD_NUMBERS * count]);
    let answer = whole(&numbers_of(&rows), &mut card);
    assert_eq!(answer, fast::whole(&numbers_of(&rows), &mut fast_card));
    assert_eq!(card, fast_card);
    let column = |of: usize| card.iter().copied().skip(of).step_by(CARD_NUMBERS).collect();
    (answer, column(0), column(2))
}

fn pickups(rows: &[Row]) -> Vec<u64> {
    let (answer, pickups, _) = given(rows);
    assert_eq!(answer, Answer::DONE);
    pickups
}

fn cutoff(row: Row) -> u64 {
    let (answer, _, cutoffs) = given(&[row]);
    assert_eq!(answer, Answer::DONE);
    cutoffs[0]
}

/// 14 mA of work ask 15.4 mA exactly.
#[test]
fn p1_on_each_side() {
    for (rated_primary, rated_secondary, work, pickup) in [
        (7, 5, 13, 11),
        (7, 5, 14, 11),
        (7, 5, 15, 12),
        (7, 5, 16, 13),
        (7, 5, 17, 14),
        (7, 5, 14_000, 11_000),
        (7, 5, 14_001, 11_001),
        (1, 5, 10, 55),
        (1, 5, 1, 6),
        (1, 1, 10, 11),
        (20_000, 1, 18_181, 1),
        (20_000, 1, 18_182, 2),
        (20_000, 5, 18_181, 5),
        (20_000, 5, 18_182, 6),
    ] {
        let row = row(rated_primary, rated_secondary, work);
        assert_eq!(pickups(&[row]), [pickup], "{rated_primary}/{rated_secondary}, {work}");
    }
    let on_steps = |low, step| pickups(&[Row { low, step, ..row(7, 5, 14) }]);
    assert_eq!(
        (on_steps(3, 4), on_steps(3, 5), on_steps(11, 9), on_steps(12, 9)),
        (vec![11], vec![13], vec![11], vec![12])
    );
}

/// Where the greatest secondary pickup just meets P1, and just does not; then P3.
#[test]
fn range_on_each_side() {
    let under = |high, work| given(&[Row { high, ..row(7, 5, work) }]).0;
    assert_eq!((under(11, 14), under(11, 15)), (Answer::DONE, Answer::at(RANGE, 1)));
    assert_eq!((under(10, 14), under(500_000, 636_363)), (Answer::at(RANGE, 1), Answer::DONE));
    assert_eq!(under(500_000, 636_364), Answer::at(RANGE, 1));
    assert_eq!(given(&[row(200, 1, 90_909_090)]).0, Answer::at(OWN_ZONE, 1));
    assert_eq!(given(&[row(200, 1, 90_909_091)]).0, Answer::at(RANGE, 1));
    assert_eq!(pickups(&[row(200, 1, 60_606_000)]), [333_333]);
    assert_eq!(given(&[row(200, 1, 60_606_001)]).0, Answer::at(OWN_ZONE, 1));
}

/// At 500 V, 15.4 mA ask 77 mA at 110 V exactly: 10 × 77 × 110 = 11 × 15.4 × 500.
#[test]
fn p2_above_a_secondary_row() {
    let above = |volts, feeder: Row| {
        let fed = Row { volts: 500, ..row(7, 5, 14) };
        pickups(&[fed, Row { volts, ..feeder }])[1]
    };
    for (volts, pickup) in [(109, 78), (110, 77), (111, 77), (112, 76)] {
        assert_eq!(above(volts, row(0, 0, 1)), pickup, "{volts}");
    }
    // In 1.4, 15.4 and 11 mA.
    for (rated_primary, rated_secondary, at, below) in
        [(7, 5, 55, 56), (77, 5, 5, 6), (11, 1, 7, 8)]
    {
        let feeder = row(rated_primary, rated_secondary, 1);
        assert_eq!((above(110, feeder), above(109, feeder)), (at, below));
    }
    // 48.4 mA at 175 V are 22 times 2.2 mA.
    let feeder = row(11, 5, 1);
    assert_eq!([174, 175, 176].map(|volts| above(volts, feeder)), [23, 22, 22]);
}

/// A primary row below: 100 mA at 140 V ask 154 mA at 100 V, 110 times 1.4.
#[test]
fn p2_of_a_secondary_row() {
    let above = |fed| {
        let fed = Row { volts: 140, low: fed, ..row(0, 0, 1) };
        pickups(&[fed, row(7, 5, 1)])[1]
    };
    assert_eq!([99, 100, 101].map(above), [109, 110, 112]);
}

/// Two fed rows: 11 × (15.4 + 2) = 191.4 and 11 × (3 + 14) = 187; then the primary
/// one asks more, 11 × (99 + 14) = 1,243.
#[test]
fn p2_with_every_fed_row() {
    let above = |work, feeder| pickups(&[row(7, 5, 14), row(0, 0, work), feeder]);
    assert_eq!(above(2, row(0, 0, 1)), [11, 3, 20]);
    assert_eq!(above(2, row(7, 5, 1)), [11, 3, 14]);
    assert_eq!(above(90, row(0, 0, 1)), [11, 99, 125]);
    assert_eq!(above(90, row(11, 5, 1)), [11, 99, 57]);
}

/// The same current behind 100/5 A and behind 100/1 A, side by side and one above the
/// other: 1,100 mA, then 11 × (1,100 + 1,000) / 10 = 2,310 mA.
#[test]
fn rated_1_and_5_in_one_list() {
    let of = |feeder| pickups(&[row(100, 5, 1_000), row(100, 1, 1_000), feeder]);
    assert_eq!(of(row(0, 0, 1)), [55, 11, 2_310]);
    assert_eq!(of(row(100, 5, 1)), [55, 11, 116]);
    assert_eq!(of(row(100, 1, 1)), [55, 11, 24]);
}

/// 15.4 mA ask 23.1, and 28 mA ask 42.
#[test]
fn p3_on_each_side() {
    let with = |low, far| given(&[Row { low, far, ..row(7, 5, 1) }]).0;
    let own_zone = Answer::at(OWN_ZONE, 1);
    assert_eq!((with(11, 24), with(11, 23)), (Answer::DONE, own_zone));
    assert_eq!((with(20, 42), with(20, 41)), (Answer::DONE, own_zone));
}

/// 15.4 mA at 100 V ask 18.48 mA there; at 500 V they ask 84 mA at 110 V.
#[test]
fn p4_on_each_side() {
    let above = |volts, fed_volts, far| {
        let fed = Row { volts: fed_volts, far, backed: 1, ..row(0, 0, 1) };
        given(&[fed, Row { volts, low: 11, ..row(7, 5, 1) }]).0
    };
    let backup = Answer::backup(2, 1);
    assert_eq!((above(100, 100, 19), above(100, 100, 18)), (Answer::DONE, backup));
    assert_eq!((above(500, 110, 84), above(500, 110, 83)), (Answer::DONE, backup));
    // What is keyed in the fed row does not count.
    let fed = |far| Row { volts: 110, far, backed: 1, ..row(7, 5, 1) };
    let feeder = Row { volts: 500, low: 11, ..row(7, 5, 1) };
    assert_eq!([84, 83].map(|far| given(&[fed(far), feeder]).0), [Answer::DONE, backup]);
}

/// With factor 1,100 a clear of 14 mA asks 15.4 mA exactly.
#[test]
fn cutoff_on_each_side() {
    let fitted = |clear| Row { factor: 1_100, clear, near: 100, ..row(7, 5, 1) };
    assert_eq!([13, 14, 15, 16].map(|clear| cutoff(fitted(clear))), [11, 11, 12, 13]);
    assert_eq!(cutoff(Row { high: 11, ..fitted(14) }), 11);
    assert_eq!(cutoff(Row { high: 10, ..fitted(14) }), 0);
    assert_eq!(cutoff(Row { low: 2, step: 4, ..fitted(14) }), 14);
}

/// 12 × 15.4 = 184.8 and 20 × 15.4 = 308; 12 × 70 = 840 and 20 × 70 = 1,400.
#[test]
fn near_on_each_side() {
    for (kind, clear, near, number) in [
        (LINE, 14, 19, 11),
        (LINE, 14, 18, 0),
        (TRANSFORMER, 14, 31, 11),
        (TRANSFORMER, 14, 30, 0),
        (MOTOR, 14, 31, 11),
        (MOTOR, 14, 30, 0),
    ] {
        let row = Row { kind, factor: 1_100, clear, near, ..row(7, 5, 1) };
        assert_eq!(cutoff(row), number, "{kind}, {near}");
    }
    let at_70 = |kind, near| cutoff(Row { kind, clear: 70, near, ..row(7, 5, 1) });
    assert_eq!((at_70(LINE, 84), at_70(LINE, 83)), (50, 0));
    assert_eq!((at_70(MOTOR, 140), at_70(MOTOR, 139)), (50, 0));
}
