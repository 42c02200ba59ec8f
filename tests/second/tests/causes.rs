//! Why no pickup fits [02 §2], worked out by hand on each side of a bound and
//! where several are due.

use second::answer::{Answer, BACKUP, DELAY, FIELD, OWN_ZONE, RANGE};
use second::replace::{replace, Ledger};
use second::row::{field::*, numbers_of, Row, CARD_NUMBERS, FIELDS, LINE};
use second::whole::whole;
use second::{fast, generate, text};

/// Rows 1 and 2 feed from row 3: the two fed rows of section 7, with 100,000 and
/// 99,000 by P1 at equality for the second, and 209,000 by P2 at equality. P3
/// asks far 150,000, 148,500 and 313,500, and P4 asks 250,800 of rows 1 and 2.
fn rows() -> [Row; 3] {
    let row = |row, feeds_from, work, low, step, far, floor| Row {
        row,
        feeds_from,
        kind: LINE,
        volts: 35_000,
        work,
        selfstart: 1_000,
        return_factor: 1_000,
        far,
        clear: 1_000_000,
        near: 1_800_000,
        factor: 1_300,
        low,
        high: 5_000_000,
        step,
        device: 1,
        floor,
        ceiling: 5_000,
        backed: 1,
        rated_primary: 0,
        rated_secondary: 0,
        law: 0,
        near_greatest: 1,
    };
    [
        row(1, 3, 10_000, 100_000, 1_000, 250_800, 100),
        row(2, 3, 90_000, 50_000, 1_000, 250_800, 200),
        row(3, 0, 1, 1, 1, 313_500, 0),
    ]
}

const CARD: [u64; 3 * CARD_NUMBERS] = [
    100_000, 100, 1_300_000, 0, 0, //
    99_000, 200, 1_300_000, 0, 0, //
    209_000, 500, 1_300_000, 0, 0,
];

/// Row, field and value.
type Change = (usize, usize, u64);

const DONE: Answer = Answer::DONE;

const fn delay(place: u64) -> Answer {
    Answer::at(DELAY, place)
}

const fn range(place: u64) -> Answer {
    Answer::at(RANGE, place)
}

const fn own_zone(place: u64) -> Answer {
    Answer::at(OWN_ZONE, place)
}

const fn backup(fed: u64) -> Answer {
    Answer::backup(3, fed)
}

/// The greatest available pickup just meets P1 or P2, or just does not.
const RANGES: [(&[Change], Answer); 7] = [
    (&[(2, HIGH, 99_000)], DONE),
    (&[(2, HIGH, 98_999)], range(2)),
    (&[(3, HIGH, 209_000)], DONE),
    (&[(3, HIGH, 208_999)], range(3)),
    (&[(3, LOW, 104_500), (3, STEP, 104_500), (3, HIGH, 209_000)], DONE),
    (&[(3, LOW, 104_500), (3, STEP, 104_500), (3, HIGH, 208_999)], range(3)),
    (&[(3, LOW, 208_000), (3, STEP, 1_001), (3, HIGH, 209_000)], range(3)),
];

const OWN_ZONES: [(&[Change], Answer); 5] = [
    (&[(3, FAR, 313_499)], own_zone(3)),
    (&[(1, BACKED, 0), (1, FAR, 150_000)], DONE),
    (&[(1, BACKED, 0), (1, FAR, 149_999)], own_zone(1)),
    (&[(3, LOW, 208_000), (3, STEP, 1_001), (3, FAR, 313_501)], own_zone(3)),
    (&[(1, BACKED, 0), (2, BACKED, 0), (3, LOW, 209_001)], own_zone(3)),
];

const BACKUPS: [(&[Change], Answer); 10] = [
    (&[(1, FAR, 250_799)], backup(1)),
    (&[(2, FAR, 250_799)], backup(2)),
    (&[(1, FAR, 250_799), (2, BACKED, 0)], backup(1)),
    (&[(1, FAR, 250_799), (1, BACKED, 0), (2, FAR, 250_799)], backup(2)),
    (&[(1, FAR, 250_799), (2, FAR, 148_500)], backup(1)),
    (&[(1, FAR, 150_000), (2, FAR, 250_799)], backup(1)),
    (&[(3, FAR, 400_000), (3, LOW, 209_001)], backup(1)),
    (&[(3, FAR, 400_000), (1, FAR, 250_802), (3, LOW, 209_001)], backup(2)),
    (&[(3, VOLTS, 70_000)], DONE),
    (&[(3, VOLTS, 70_000), (2, FAR, 250_799)], backup(2)),
];

/// Of one row, the first of RANGE, OWN ZONE, BACKUP and DELAY.
const IN_ONE_ROW: [(&[Change], Answer); 7] = [
    (&[(3, FAR, 313_499), (1, FAR, 250_799)], own_zone(3)),
    (&[(3, FAR, 1), (2, FAR, 148_500), (1, FAR, 150_000)], own_zone(3)),
    (&[(3, FAR, 1), (3, HIGH, 208_999), (1, FAR, 250_799)], range(3)),
    (&[(3, CEILING, 499)], delay(3)),
    (&[(3, CEILING, 499), (3, HIGH, 208_999)], range(3)),
    (&[(3, CEILING, 499), (3, FAR, 313_499)], own_zone(3)),
    (&[(3, CEILING, 499), (2, FAR, 250_799)], backup(2)),
];

/// Of two rows, the earlier.
const OF_TWO_ROWS: [(&[Change], Answer); 7] = [
    (&[(3, HIGH, 208_999), (2, CEILING, 199)], delay(2)),
    (&[(3, FAR, 1), (1, CEILING, 99)], delay(1)),
    (&[(2, FAR, 250_799), (1, CEILING, 99)], delay(1)),
    (&[(3, HIGH, 208_999), (2, FAR, 148_499)], own_zone(2)),
    (&[(3, FAR, 1), (2, HIGH, 98_999)], range(2)),
    (&[(2, FAR, 250_799), (1, FAR, 149_999)], own_zone(1)),
    (&[(3, HIGH, 208_999), (2, HIGH, 98_999)], range(2)),
];

fn changed(changes: &[Change]) -> Vec<u64> {
    let mut list = numbers_of(&rows());
    for &(place, field, value) in changes {
        list[(place - 1) * FIELDS + field - 1] = value;
    }
    list
}

/// By both whole calculations, in print, and where the row changed last replaces
/// the first one there: on that list with the card above, and by the ledger if
/// the list was accepted.
fn check(cases: &[(&[Change], Answer)]) {
    for &(changes, answer) in cases {
        let list = changed(changes);
        assert_eq!(whole(&list, &mut [0; 3 * CARD_NUMBERS]), answer, "{changes:?}");
        assert_eq!(fast::whole(&list, &mut [0; 3 * CARD_NUMBERS]), answer, "{changes:?}");
        if answer != DONE {
            let Answer { number, place, field } = answer;
            let print = format!("refused,place,field\r\n{number},{place},{field}\r\n");
            assert_eq!(text::card(&generate::text(&list, 1)), print.as_bytes(), "{changes:?}");
        }
        let place = changes[changes.len() - 1].0;
        let row = (place - 1) * FIELDS..place * FIELDS;
        let mut lent = list.clone();
        lent[row.clone()].copy_from_slice(&changed(&[])[row.clone()]);
        if whole(&lent, &mut [0; 3 * CARD_NUMBERS]) == DONE {
            assert_eq!(Ledger::new(&lent).feed(place as u64, &list[row.clone()]), answer);
        }
        let given = replace(&mut lent, &mut CARD.clone(), place as u64, &list[row]).answer;
        assert_eq!(given, answer, "{changes:?}");
    }
}

#[test]
fn list_as_it_is() {
    let mut card = [0; 3 * CARD_NUMBERS];
    assert_eq!((whole(&changed(&[]), &mut card), card), (DONE, CARD));
}

#[test]
fn range_on_each_side() {
    check(&RANGES);
}

#[test]
fn own_zone_on_each_side() {
    check(&OWN_ZONES);
}

#[test]
fn backup_on_each_side() {
    check(&BACKUPS);
}

#[test]
fn several_in_one_row() {
    check(&IN_ONE_ROW);
}

#[test]
fn one_in_each_of_two_rows() {
    check(&OF_TWO_ROWS);
}

/// Off the path the card's numbers count: with 100,001 for row 1 the least pickup
/// of row 3 is 209,002, and P4 asks 250,803 of the rows that it feeds.
#[test]
fn backup_by_the_card_as_found() {
    let mut card = CARD;
    card[0] = 100_001;
    let lent = changed(&[(1, FAR, 250_803), (3, FAR, 400_000)]);
    for (far, answer) in [(250_803, DONE), (250_802, backup(2))] {
        let row = &changed(&[(2, FAR, far)])[FIELDS..2 * FIELDS];
        assert_eq!(replace(&mut lent.clone(), &mut card.clone(), 2, row).answer, answer);
    }
}

#[test]
fn third_number_is_a_field_or_a_fed_row() {
    assert_eq!((backup(2).number, backup(2).place, backup(2).field), (BACKUP, 3, 2));
    let bad = changed(&[(2, FAR, 0), (3, FAR, 1)]);
    assert_eq!(
        whole(&bad, &mut [0; 3 * CARD_NUMBERS]),
        Answer { number: FIELD, place: 2, field: 8 }
    );
}
