//! CURVE by each M that is needed and in its order, and replacements of curve rows and
//! beside them, by hand [02 §3].

mod common;

use second::answer::*;
use second::curve::{B, C, DEFINITE};
use second::fast;
use second::replace::{replace, Ledger, Replaced};
use second::row::{numbers_of, Row, CARD_NUMBERS, FIELDS};
use second::whole::whole;

/// 1,100 mA by P1.
fn fed(row: u64, feeds_from: u64, law: u64, near_greatest: u64) -> Row {
    Row { law, near_greatest, ..common::row(row, feeds_from, [0, 0], 1_000) }
}

/// What P2 asks, as its work asks for little.
fn feeding(row: u64, feeds_from: u64, law: u64, near_greatest: u64) -> Row {
    Row { law, near_greatest, ..common::row(row, feeds_from, [0, 0], 1) }
}

fn answer(rows: &[Row]) -> Answer {
    let given = whole(&numbers_of(rows), &mut vec![0; CARD_NUMBERS * rows.len()]);
    assert_eq!(fast::whole(&numbers_of(rows), &mut vec![0; CARD_NUMBERS * rows.len()]), given);
    given
}

const fn curve(place: u64) -> Answer {
    Answer::at(CURVE, place)
}

/// Of one row CURVE after the pickups' causes and before DELAY, and of two rows the
/// earlier: at 1 mA the M of a row is below 1.
#[test]
fn curve_in_its_order() {
    let (one, two) = (fed(1, 2, B, 2_420), feeding(2, 0, B, 12_100));
    let [rests, late] = [Row { near_greatest: 1, ..two }, Row { floor: 1, ceiling: 0, ..two }];
    let both = Row { floor: 1, ceiling: 0, ..rests };
    let seen = Row { far: 1_650, backed: 1, ..one };
    let one_rests = Row { near_greatest: 1, ..one };
    let one_late = Row { floor: 1, ceiling: 0, ..one };
    for (rows, due) in [
        ([one, two], Answer::DONE),
        ([one, rests], curve(2)),
        ([one, late], Answer::at(DELAY, 2)),
        ([one, both], curve(2)),
        ([one, Row { high: 1_209, ..both }], Answer::at(RANGE, 2)),
        ([one, Row { far: 1_814, ..both }], Answer::at(OWN_ZONE, 2)),
        ([seen, Row { low: 2_000, ..both }], Answer::backup(2, 1)),
        ([one_rests, Row { high: 1, ..both }], curve(1)),
        ([one_rests, Row { far: 1, ..both }], curve(1)),
        ([one_rests, rests], curve(1)),
        ([one_rests, late], curve(1)),
        ([one_late, rests], Answer::at(DELAY, 1)),
        ([one_late, Row { high: 1, ..rests }], Answer::at(DELAY, 1)),
        ([Row { law: DEFINITE, ..one_rests }, rests], curve(2)),
        ([Row { law: DEFINITE, ..one_rests }, Row { near_greatest: 12_100, ..rests }], curve(2)),
        ([one_rests, Row { law: DEFINITE, ..two }], curve(1)),
        ([Row { law: DEFINITE, ..one_rests }, Row { law: DEFINITE, ..rests }], Answer::DONE),
    ] {
        assert_eq!(answer(&rows), due, "{rows:?}");
    }
}

/// Row 2 in place of itself on a card with that first row: what is given, and its delay.
fn above(first: Row, lent: [u64; CARD_NUMBERS]) -> (Answer, u64) {
    let second = feeding(2, 0, DEFINITE, 1);
    let mut card = [lent, [1, 0, 0, 0, 0]].concat();
    let given = replace(&mut numbers_of(&[first, second]), &mut card, 2, &second.numbers());
    assert_eq!(card[..CARD_NUMBERS], lent);
    (given.answer, card[CARD_NUMBERS + 1])
}

/// Off the path the card's law counts, and of delay and multiplier the one that it reads.
#[test]
fn card_row_read_as_found() {
    for law in [DEFINITE, B, C] {
        for (near, lent, delay) in [
            (2_200, [1_100, 77, 0, B, 10], 435),
            (3_300, [1_100, 77, 0, C, 10], 400),
            (2_200, [1_100, 77, 0, B, 1_500], 20_550),
            (2_200, [1_100, 77, 0, B, 9], 422),
            (2_200, [1_100, 77, 0, B, 0], 300),
            (2_200, [1_100, 77, 0, DEFINITE, 1_500], 377),
            (1, [1_100, 77, 0, DEFINITE, 1_500], 377),
            // Behind the lent pickup M is 4, and the feeder's is left out.
            (2_200, [550, 77, 0, B, 10], 345),
            (1_102, [1_100, 77, 0, B, 0], 300),
            (1_102, [1_100, 77, 0, B, 1], 13_800),
        ] {
            let given = above(fed(1, 2, law, near), lent);
            assert_eq!(given, (Answer::DONE, delay), "{law}, {near}, {lent:?}");
        }
        for (near, lent, due) in [
            (1_101, [1_100, 77, 0, B, 0], curve(1)),
            (1_101, [1_100, 77, 0, C, 1_500], curve(1)),
            (2_200, [2_200, 77, 0, C, 10], curve(1)),
            (1_102, [1_100, 77, 0, B, 10], Answer::at(DELAY, 2)),
            (2_200, [1_100, 77, 0, 3, 10], Answer::at(CARD, 1)),
            (2_200, [1_100, 77, 0, DEFINITE, 1_501], Answer::at(CARD, 1)),
        ] {
            assert_eq!(above(fed(1, 2, law, near), lent).0, due, "{law}, {near}, {lent:?}");
        }
    }
}

/// Own M, then of rows 1 and 2 each its own and row 3's there. Row 3 gets 2,310 mA; at
/// 1,100 mA the fed row's M is 1, at 2,310 mA it is 2.1 and row 3's there 1.
#[test]
fn needed_multiples_in_their_order() {
    let [low, between, high] = [1_100, 2_310, 9_240];
    for (own, first, second, due) in [
        (2_310, low, low, curve(3)),
        (9_240, low, low, curve(1)),
        (9_240, low, high, curve(1)),
        (9_240, between, low, curve(3)),
        (9_240, between, high, curve(3)),
        (9_240, high, low, curve(2)),
        (9_240, high, between, curve(3)),
        (9_240, high, high, Answer::DONE),
    ] {
        let rows = [fed(1, 3, DEFINITE, first), fed(2, 3, DEFINITE, second), feeding(3, 0, C, own)];
        let mut card = [[1_100, 0, 0, B, 10], [1_100, 0, 0, C, 10], [1, 0, 0, 0, 0]].concat();
        let given = replace(&mut numbers_of(&rows), &mut card, 3, &rows[2].numbers());
        assert_eq!(given.answer, due, "{own}, {first}, {second}");
    }
}

/// A new row, the rows worked out or the refusal, and after it delay, law and multiplier
/// of each row.
type Change = (Row, Result<u64, Answer>, [[u64; 3]; 3]);

/// Each change in turn; the ledger says the same.
fn check_series(rows: &[Row], changes: &[Change]) {
    let (mut list, mut card) = (numbers_of(rows), vec![0; CARD_NUMBERS * rows.len()]);
    assert_eq!(whole(&list, &mut card), Answer::DONE);
    let mut ledger = Ledger::new(&list);
    for (new, due, timed) in changes {
        let replaced = replace(&mut list, &mut card, new.row, &new.numbers());
        let answer = ledger.feed(new.row, &new.numbers());
        assert_eq!(replaced, Replaced { answer, rows: ledger.rows() });
        let due = due.map_or_else(Replaced::refused, Replaced::done);
        assert_eq!(replaced, due, "{new:?}");
        assert_eq!((&list[..], &card), (ledger.list(), &ledger.card_in(&card)));
        let given: Vec<[u64; 3]> = card.chunks(CARD_NUMBERS).map(|c| [c[1], c[3], c[4]]).collect();
        assert_eq!(given, timed, "{new:?}");
        let mut afresh = vec![0; card.len()];
        assert_eq!((fast::whole(&list, &mut afresh), &afresh), (Answer::DONE, &card));
    }
}

/// A chain with 1,100, 1,210 and 1,331 mA. At 2,420 mA row 1's M is 2.2: 11.25 ms of B and
/// 20.83 of C for each thousandth; row 2's there is 2, with 13.5 ms of B.
#[test]
fn laws_and_near_ends_replaced() {
    let one = |law, near| Row { floor: 200, ..fed(1, 2, law, near) };
    let two = |law, near| feeding(2, 3, law, near);
    let definite = |delay| [delay, DEFINITE, 0];
    let c = [0, C, 10];
    check_series(
        &[one(DEFINITE, 2_420), two(DEFINITE, 12_100), feeding(3, 0, DEFINITE, 1)],
        &[
            (one(B, 2_420), Ok(3), [[0, B, 18], definite(503), definite(803)]),
            (one(C, 2_420), Ok(3), [c, definite(509), definite(809)]),
            // Of row 2 38 thousandths, 57 ms at its own near end, where M is 10.
            (two(B, 12_100), Ok(2), [c, [0, B, 38], definite(357)]),
            // The same 38, but 27 ms where M is 20.
            (two(B, 24_200), Ok(2), [c, [0, B, 38], definite(327)]),
            (two(B, 30_000), Ok(2), [c, [0, B, 38], definite(327)]),
            (one(C, 2_421), Ok(2), [c, [0, B, 38], definite(327)]),
            (two(B, 1_210), Err(curve(2)), [c, [0, B, 38], definite(327)]),
            (one(C, 1_210), Err(curve(2)), [c, [0, B, 38], definite(327)]),
            (one(C, 1_100), Err(curve(1)), [c, [0, B, 38], definite(327)]),
            // Row 2 gets 37 thousandths, 26.3 ms, so 27: the climb goes on, and row 3 stays.
            (one(DEFINITE, 2_420), Ok(3), [definite(200), [0, B, 37], definite(327)]),
            (one(B, 2_420), Ok(3), [[0, B, 18], [0, B, 38], definite(327)]),
            (two(DEFINITE, 1), Ok(2), [[0, B, 18], definite(503), definite(803)]),
        ],
    );
}

/// The climb goes past a row where a law or a multiplier alone was another.
#[test]
fn stop_where_law_and_multiplier_are_equal() {
    let rows = [fed(1, 2, B, 2_420), feeding(2, 3, B, 12_100), feeding(3, 0, DEFINITE, 1)];
    let list = numbers_of(&rows);
    let mut own = vec![0; CARD_NUMBERS * rows.len()];
    assert_eq!(whole(&list, &mut own), Answer::DONE);
    assert_eq!(own[CARD_NUMBERS..2 * CARD_NUMBERS], [1_210, 0, 0, B, 31]);
    for (column, value, worked_out) in [(3, B, 2), (3, C, 3), (4, 31, 2), (4, 30, 3)] {
        let mut card = own.clone();
        card[CARD_NUMBERS + column] = value;
        let given = replace(&mut list.clone(), &mut card, 1, &list[..FIELDS]);
        assert_eq!((given, &card), (Replaced::done(worked_out), &own), "{column}, {value}");
    }
}
