//! How far a change goes [02 §8], worked out by hand.

use second::answer::*;
use second::fast;
use second::replace::{replace, Ledger, Replaced};
use second::row::{field::*, numbers_of, Row, CARD_NUMBERS, FIELDS, LINE};
use second::whole::whole;

const fn row(row: u64, feeds_from: u64, work: u64, low: u64, step: u64, floor: u64) -> Row {
    Row {
        row,
        feeds_from,
        kind: LINE,
        volts: 35_000,
        work,
        selfstart: 1_000,
        return_factor: 1_000,
        far: 900_000,
        clear: 1_000_000,
        near: 1_800_000,
        factor: 1_300,
        low,
        high: 5_000_000,
        step,
        device: 1,
        floor,
        ceiling: 5_000,
        backed: 0,
        rated_primary: 0,
        rated_secondary: 0,
        law: 0,
        near_greatest: 1,
    }
}

/// Each row fed by the next. P1 asks 110,000 of row 1, P2 asks 121,000, 133,100
/// and 154,000 of the others; D2 asks 1,600 of row 3, whose floor is 2,000.
const CHAIN: [Row; 4] = [
    row(1, 2, 100_000, 10_000, 1_000, 1_000),
    row(2, 3, 1, 10_000, 1_000, 0),
    row(3, 4, 1, 10_000, 10_000, 2_000),
    row(4, 0, 1, 50_000, 50_000, 0),
];

const CUTOFF: u64 = 1_300_000;

const PICKUPS: [u64; 4] = [110_000, 121_000, 140_000, 200_000];
const DELAYS: [u64; 4] = [1_000, 1_300, 2_000, 2_300];

fn card_of(pickups: [u64; 4], delays: [u64; 4]) -> Vec<u64> {
    (0..4).flat_map(|at| [pickups[at], delays[at], CUTOFF, 0, 0]).collect()
}

fn own_card() -> Vec<u64> {
    card_of(PICKUPS, DELAYS)
}

/// Row, field and value.
type Change = (usize, usize, u64);

fn changed(rows: &[Row], changes: &[Change]) -> Vec<u64> {
    let mut list = numbers_of(rows);
    for &(place, field, value) in changes {
        list[(place - 1) * FIELDS + field - 1] = value;
    }
    list
}

/// The row of the list with the change.
fn new_row(list: &[u64], (place, field, value): Change) -> Vec<u64> {
    let mut row = list[(place - 1) * FIELDS..][..FIELDS].to_vec();
    row[field - 1] = value;
    row
}

/// On an accepted list's own card, where the ledger must count the same.
fn on_own_card(list: &[u64], change: Change) -> (Replaced, Vec<u64>) {
    let (mut list, row) = (list.to_vec(), new_row(list, change));
    let mut card = vec![0; CARD_NUMBERS * list.len() / FIELDS];
    assert_eq!(whole(&list, &mut card), Answer::DONE);
    let mut ledger = Ledger::new(&list);
    let answer = ledger.feed(change.0 as u64, &row);
    let replaced = replace(&mut list, &mut card, change.0 as u64, &row);
    assert_eq!(replaced, Replaced { answer, rows: ledger.rows() }, "{change:?}");
    let mut afresh = vec![0; card.len()];
    assert_eq!((fast::whole(&list, &mut afresh), &afresh), (Answer::DONE, &card), "{change:?}");
    (replaced, card)
}

/// Rows worked out, and the card after.
type Case = (Change, u64, [u64; 4], [u64; 4]);

const CASES: [Case; 14] = [
    // At the first feeding row, the replaced one being the same, though not its data.
    ((1, ROW, 1), 2, PICKUPS, DELAYS),
    ((1, FAR, 800_000), 2, PICKUPS, DELAYS),
    ((1, WORK, 99_950), 2, PICKUPS, DELAYS),
    ((2, LOW, 11_000), 2, PICKUPS, DELAYS),
    // The same, the replaced row being another.
    ((3, LOW, 150_000), 2, [110_000, 121_000, 150_000, 200_000], DELAYS),
    // At the second, where in the first only the pickup or only the delay is the same.
    ((1, WORK, 100_900), 3, [111_000, 123_000, 140_000, 200_000], DELAYS),
    ((1, FLOOR, 1_100), 3, PICKUPS, [1_100, 1_400, 2_000, 2_300]),
    ((1, FLOOR, 1_400), 3, PICKUPS, [1_400, 1_700, 2_000, 2_300]),
    // The same, the replaced row being the same: its device counts above it.
    ((1, DEVICE, 2), 3, PICKUPS, [1_000, 1_500, 2_000, 2_300]),
    // At the last row, and nowhere.
    ((1, WORK, 120_000), 4, [132_000, 146_000, 170_000, 200_000], DELAYS),
    ((1, WORK, 140_000), 4, [154_000, 170_000, 190_000, 250_000], DELAYS),
    ((1, FLOOR, 1_401), 4, PICKUPS, [1_401, 1_701, 2_001, 2_301]),
    // The source's own row has no feeding row.
    ((4, ROW, 4), 1, PICKUPS, DELAYS),
    ((4, LOW, 250_000), 1, [110_000, 121_000, 140_000, 250_000], DELAYS),
];

#[test]
fn rows_of_the_path_up_to_the_stop() {
    for (change, rows, pickups, delays) in CASES {
        let expected = (Replaced::done(rows), card_of(pickups, delays));
        assert_eq!(on_own_card(&numbers_of(&CHAIN), change), expected, "{change:?}");
    }
}

/// The replaced row's cutoff alone becomes another; a feeding row's never does.
#[test]
fn cutoff_of_the_replaced_row() {
    let mut card = own_card();
    card[2] = 1_170_000;
    let change = (1, CLEAR, 900_000);
    assert_eq!(on_own_card(&numbers_of(&CHAIN), change), (Replaced::done(2), card));
}

#[test]
fn list_of_one_row() {
    let alone = numbers_of(&[row(1, 0, 100_000, 10_000, 1_000, 1_000)]);
    assert_eq!(on_own_card(&alone, (1, ROW, 1)).0, Replaced::done(1));
    assert_eq!(on_own_card(&alone, (1, WORK, 120_000)).0, Replaced::done(1));
}

/// The two fed rows of section 7 below row 3: 209,000 there, then 229,900 and
/// 275,000 in steps of 50,000. With row 2's work 90,900, of which its own card row
/// shows nothing, row 3 gets 209,990 and row 4 is asked 230,989. By row 2's far
/// nothing changes, down to what P4 asks of it at 209,000 [01 §7, traps].
#[test]
fn climb_goes_on_where_the_replaced_card_row_stays() {
    let mut rows = [
        row(1, 3, 10_000, 100_000, 1_000, 0),
        row(2, 3, 90_000, 101_000, 1_000, 0),
        row(3, 4, 1, 1, 1, 0),
        row(4, 5, 1, 50_000, 50_000, 0),
        row(5, 0, 1, 50_000, 50_000, 0),
    ];
    rows[1].backed = 1;
    let list = numbers_of(&rows);
    let pickups = |card: &[u64]| [0, 1, 2, 3, 4].map(|at| card[at * CARD_NUMBERS]);
    let (replaced, card) = on_own_card(&list, (2, WORK, 90_900));
    let expected = [100_000, 101_000, 209_990, 250_000, 300_000];
    assert_eq!((replaced, pickups(&card)), (Replaced::done(3), expected));
    let (replaced, card) = on_own_card(&list, (2, FAR, 250_800));
    let expected = [100_000, 101_000, 209_000, 250_000, 300_000];
    assert_eq!((replaced, pickups(&card)), (Replaced::done(2), expected));
    let (replaced, _) = on_own_card(&list, (2, FAR, 250_799));
    assert_eq!(replaced, Replaced::refused(Answer::backup(3, 2)));
}

/// By what the accepted list has, and by the change: refused at the replaced row,
/// and at one that the climb comes to.
const REFUSALS: [(&[Change], Change, Answer); 12] = [
    (&[], (1, ROW, 2), Answer::at(EDIT, 0)),
    (&[], (1, FEEDS_FROM, 3), Answer::at(EDIT, 0)),
    (&[], (1, VOLTS, 99), Answer::field(1, VOLTS as u64)),
    (&[], (2, KIND, 3), Answer::at(TREE, 1)),
    (&[], (1, HIGH, 109_999), Answer::at(RANGE, 1)),
    (&[(2, HIGH, 122_999)], (1, WORK, 100_900), Answer::at(RANGE, 2)),
    (&[], (1, FAR, 164_999), Answer::at(OWN_ZONE, 1)),
    (&[(3, FAR, 254_999)], (1, WORK, 120_000), Answer::at(OWN_ZONE, 3)),
    (&[(3, BACKED, 1)], (3, FAR, 239_999), Answer::backup(4, 3)),
    (&[(3, BACKED, 1), (3, FAR, 299_999)], (1, WORK, 140_000), Answer::backup(4, 3)),
    (&[], (1, CEILING, 999), Answer::at(DELAY, 1)),
    (&[(4, CEILING, 2_300)], (1, FLOOR, 1_401), Answer::at(DELAY, 4)),
];

#[test]
fn refusals_count_no_row() {
    for (changes, change, answer) in REFUSALS {
        let (replaced, _) = on_own_card(&changed(&CHAIN, changes), change);
        assert_eq!(replaced, Replaced::refused(answer), "{change:?}");
    }
    let (list, row) = (numbers_of(&CHAIN), CHAIN[0].numbers());
    let give = |list: &[u64], card: &[u64], place: u64, row: &[u64]| {
        replace(&mut list.to_vec(), &mut card.to_vec(), place, row)
    };
    let refused = |number, place| Replaced::refused(Answer::at(number, place));
    assert_eq!(give(&list[1..], &own_card(), 1, &row), refused(COUNT, 0));
    assert_eq!(give(&list, &own_card()[1..], 1, &row), refused(ROOM, 0));
    assert_eq!(give(&list, &own_card(), 5, &row), refused(EDIT, 0));
    assert_eq!(give(&list, &own_card(), 1, &row[1..]), refused(EDIT, 0));
    // CARD comes before the climb, at a row past its stop too.
    let bad = card_of([110_000, 121_000, 140_000, 0], DELAYS);
    assert_eq!(give(&list, &bad, 1, &row), refused(CARD, 4));
}
