//! The numbers on each side of section 7, and its traps; the step of [02 §5].
//! Its two PICKUP cases give OWN ZONE [02 §2]; its rows end with two zeros [02 §1], law 0
//! and their near [02 §3], its card rows with two zeros.

use second::answer::{Answer, DELAY, OWN_ZONE};
use second::conditions::{stays_clear_of_fed_rows, Fed};
use second::fast;
use second::replace::{replace, Ledger, Replaced};
use second::row::{field::*, numbers_of, Row, CARD_NUMBERS, FIELDS};
use second::whole::{whole, Settings};

const LIST: [u64; 2 * FIELDS] = [
    1, 2, 1, 35_000, 180_000, 1_500, 935, 900_000, 1_000_000, 1_800_000, 1_300, 50_000, 5_000_000,
    1_000, 1, 1_900, 5_000, 1, 0, 0, 0, 1_800_000, //
    2, 0, 1, 35_000, 200_000, 1_500, 935, 1_500_000, 3_300_000, 5_200_000, 1_300, 50_000,
    10_000_000, 10_000, 1, 0, 3_000, 0, 0, 0, 0, 5_200_000,
];
const CARD: [u64; NUMBERS] = card(318_000, 360_000);
const NUMBERS: usize = 2 * CARD_NUMBERS;

/// Section 6's card with other pickups.
const fn card(first: u64, second: u64) -> [u64; NUMBERS] {
    [first, 1_900, 1_300_000, 0, 0, second, 2_200, 4_290_000, 0, 0]
}

/// The list of section 6 with one field changed.
fn with(place: usize, field: usize, value: u64) -> Vec<u64> {
    with_all([(place, field, value)])
}

fn with_all<const N: usize>(changes: [(usize, usize, u64); N]) -> Vec<u64> {
    let mut list = LIST.to_vec();
    for (place, field, value) in changes {
        list[(place - 1) * FIELDS + field - 1] = value;
    }
    list
}

/// Answer and card, by the oracle and by the linear version.
fn carded(list: &[u64]) -> (Answer, Vec<u64>) {
    let (mut card, mut fast_card) = (vec![7; NUMBERS + 2], vec![7; NUMBERS + 2]);
    let answer = whole(list, &mut card);
    assert_eq!(answer, fast::whole(list, &mut fast_card));
    assert_eq!(card, fast_card);
    assert_eq!(card[NUMBERS..], [7, 7]);
    card.truncate(NUMBERS);
    (answer, card)
}

fn refused(number: u64, place: u64) -> (Answer, Vec<u64>) {
    (Answer::at(number, place), vec![7; NUMBERS])
}

#[test]
fn list_of_section_6() {
    assert_eq!(carded(&LIST), (Answer::DONE, CARD.to_vec()));
}

#[test]
fn far_on_each_side() {
    assert_eq!(carded(&with(2, FAR, 540_000)), (Answer::DONE, CARD.to_vec()));
    assert_eq!(carded(&with(2, FAR, 539_999)), refused(OWN_ZONE, 2));
}

#[test]
fn ceiling_on_each_side() {
    assert_eq!(carded(&with(2, CEILING, 2_200)), (Answer::DONE, CARD.to_vec()));
    assert_eq!(carded(&with(2, CEILING, 2_199)), refused(DELAY, 2));
}

/// The card of section 6 with another delay in row 2.
fn delayed(delay: u64) -> (Answer, Vec<u64>) {
    let mut card = CARD.to_vec();
    card[CARD_NUMBERS + 1] = delay;
    (Answer::DONE, card)
}

/// The larger step above 1,900, by the devices of rows 1 and 2 [01 §3 D2]. The
/// request names the first two: the list as it is, and device 2 in row 2 [02 §5].
#[test]
fn step_of_each_pair_of_devices() {
    for (fed, feeding, delay) in [
        (1, 1, 2_200),
        (1, 2, 2_400),
        (1, 3, 2_200),
        (2, 1, 2_400),
        (2, 2, 2_400),
        (2, 3, 2_400),
        (3, 1, 2_200),
        (3, 2, 2_400),
        (3, 3, 2_100),
    ] {
        let under = |ceiling| {
            carded(&with_all([(1, DEVICE, fed), (2, DEVICE, feeding), (2, CEILING, ceiling)]))
        };
        assert_eq!(under(3_000), delayed(delay));
        assert_eq!(under(delay), delayed(delay));
        assert_eq!(under(delay - 1), refused(DELAY, 2));
    }
}

#[test]
fn near_on_each_side() {
    assert_eq!(carded(&with(2, NEAR, 5_148_000)), (Answer::DONE, CARD.to_vec()));
    let mut unfitted = CARD;
    unfitted[CARD_NUMBERS + 2] = 0;
    assert_eq!(carded(&with(2, NEAR, 5_147_999)), (Answer::DONE, unfitted.to_vec()));
}

#[test]
fn row_1_work_replaced() {
    let (mut list, mut lent) = (LIST, CARD);
    let new = with(1, WORK, 190_000);
    assert_eq!(replace(&mut list, &mut lent, 1, &new[..FIELDS]), Replaced::done(2));
    assert_eq!(list.to_vec(), new);
    assert_eq!(lent, card(336_000, 370_000));
    assert_eq!(carded(&new), (Answer::DONE, lent.to_vec()));
}

#[test]
fn row_1_far_replaced() {
    let (mut list, mut card) = (LIST, CARD);
    let row = &with(1, FAR, 431_000)[..FIELDS];
    let refused = Replaced::refused(Answer::at(OWN_ZONE, 1));
    assert_eq!(replace(&mut list, &mut card, 1, row), refused);
    assert_eq!((list, card), (LIST, CARD));
    let mut ledger = Ledger::new(&LIST);
    assert_eq!(ledger.feed(1, row), Answer::at(OWN_ZONE, 1));
    assert_eq!(ledger.list(), LIST);
}

/// Row 1's own card row stays, but its far no longer backs up [01 §7, traps].
#[test]
fn climb_goes_on_after_far_changed() {
    let mut list = with(2, LOW, 460_000);
    let mut card = vec![0; NUMBERS];
    assert_eq!(whole(&list, &mut card), Answer::DONE);
    let far = |far| with(1, FAR, far)[..FIELDS].to_vec();
    let refused = Replaced::refused(Answer::backup(2, 1));
    assert_eq!(replace(&mut list, &mut card, 1, &far(551_999)), refused);
    assert_eq!(replace(&mut list, &mut card, 1, &far(552_000)), Replaced::done(2));
}

#[test]
fn two_fed_rows() {
    let fed = |work: u64, pickup: u64| {
        let row = Row { work, ..Row::read(LIST[..FIELDS].try_into().unwrap()) };
        Fed { row, settings: Settings { pickup, ..Settings::default() } }
    };
    let feeder = Row::read(LIST[FIELDS..].try_into().unwrap());
    for second in [99_000, 101_000] {
        let fed = [fed(10_000, 100_000), fed(90_000, second)];
        let holds = |pickup| {
            stays_clear_of_fed_rows(&feeder, feeder.primary(pickup), &fed).all(|sides| sides.hold())
        };
        assert!(holds(209_000) && !holds(208_999));
    }
}

/// Rows 1 and 2 feed from row 3; their pickups are fixed by low.
fn two_fed_rows_list(second_work: u64, second_pickup: u64) -> [u64; 3 * FIELDS] {
    let row = |row, feeds_from, work, low, step| Row {
        row,
        feeds_from,
        work,
        low,
        step,
        selfstart: 1_000,
        return_factor: 1_000,
        ..Row::read(LIST[..FIELDS].try_into().unwrap())
    };
    let rows = [
        row(1, 3, 10_000, 100_000, 1_000),
        row(2, 3, second_work, second_pickup, 1_000),
        row(3, 0, 1, 1, 1),
    ];
    numbers_of(&rows).try_into().unwrap()
}

/// One number of each row of a card of three.
fn column(card: &[u64; 3 * CARD_NUMBERS], of: usize) -> [u64; 3] {
    [0, 1, 2].map(|row| card[row * CARD_NUMBERS + of])
}

#[test]
fn two_fed_rows_in_a_list() {
    for second in [99_000, 101_000] {
        let mut card = [0; 3 * CARD_NUMBERS];
        assert_eq!(whole(&two_fed_rows_list(90_000, second), &mut card), Answer::DONE);
        assert_eq!(column(&card, 0), [100_000, second, 209_000]);
    }
}

/// Row 2's own card row stays, but its work asks more of row 3 [01 §7, traps].
#[test]
fn climb_goes_on_after_work_changed() {
    let (mut list, mut card) = (two_fed_rows_list(90_000, 101_000), [0; 3 * CARD_NUMBERS]);
    assert_eq!(whole(&list, &mut card), Answer::DONE);
    let new = two_fed_rows_list(90_900, 101_000);
    assert_eq!(replace(&mut list, &mut card, 2, &new[FIELDS..2 * FIELDS]), Replaced::done(2));
    assert_eq!(column(&card, 0), [100_000, 101_000, 209_990]);
}

/// Rows 1, 2 and 3 in a chain; row 1 is of device 1 and row 3 of device 3.
fn chain(middle_device: u64, last_floor: u64) -> [u64; 3 * FIELDS] {
    let row = |row, feeds_from, device, floor| Row {
        row,
        feeds_from,
        device,
        floor,
        ..Row::read(LIST[..FIELDS].try_into().unwrap())
    };
    let rows = [row(1, 2, 1, 1_000), row(2, 3, middle_device, 0), row(3, 0, 3, last_floor)];
    numbers_of(&rows).try_into().unwrap()
}

/// Row 2's device counts below it and above it: its own delay changes, row 3's,
/// or both [02 §5].
#[test]
fn middle_device_replaced() {
    for (last_floor, device, delays) in [
        (0, 3, [1_000, 1_300, 1_500]),
        (0, 1, [1_000, 1_300, 1_600]),
        (0, 2, [1_000, 1_500, 2_000]),
        (2_000, 3, [1_000, 1_300, 2_000]),
        (2_000, 2, [1_000, 1_500, 2_000]),
    ] {
        let (mut list, mut card) = (chain(3, last_floor), [0; 3 * CARD_NUMBERS]);
        let mut afresh = card;
        assert_eq!(whole(&list, &mut card), Answer::DONE);
        let new = chain(device, last_floor);
        assert_eq!(replace(&mut list, &mut card, 2, &new[FIELDS..2 * FIELDS]), Replaced::done(2));
        assert_eq!(column(&card, 1), delays);
        assert_eq!((fast::whole(&new, &mut afresh), afresh), (Answer::DONE, card));
    }
}
