//! The table of section 2 written out again, with the two fields of [02 §1] for rows
//! that have 0 in both and the two of [02 §3], and the order of section 4.

use second::answer::{Answer, CARD, COUNT, EDIT, OWN_ZONE, ROOM, TREE};
use second::replace::{replace, Replaced};
use second::row::{numbers_of, Row, CARD_NUMBERS, FIELDS};
use second::whole::whole;

const MOST: u64 = 100_000_000;

/// Field, least and greatest [01 §2]. With 0 in field 20, field 19 is only to be 0,
/// which `secondary_fields` has.
const TABLE: [(usize, u64, u64); FIELDS - 2] = [
    (2, 0, 256),
    (3, 1, 3),
    (4, 100, 500_000),
    (5, 1, MOST),
    (6, 1_000, 10_000),
    (7, 800, 1_000),
    (8, 1, MOST),
    (9, 1, MOST),
    (10, 1, MOST),
    (11, 1_000, 2_000),
    (12, 1, MOST),
    (13, 1, MOST),
    (14, 1, MOST),
    (15, 1, 3),
    (16, 0, 100_000),
    (17, 0, 100_000),
    (18, 0, 1),
    (20, 0, 0),
    (21, 0, 2),
    (22, 1, MOST),
];

/// Three rows, the first two fed by the third.
fn list() -> Vec<u64> {
    let row = |row, feeds_from| [row, feeds_from, 1, 100, 1, 1_000, 1_000];
    let rest = [1_000, 1, 1, 1_000, 1, MOST, 1, 3, 0, 100_000, 0, 0, 0, 0, 1];
    [row(1, 3), row(2, 3), row(3, 0)].iter().flat_map(|row| [&row[..], &rest].concat()).collect()
}

fn with(changes: &[(usize, usize, u64)]) -> Vec<u64> {
    let mut list = list();
    for &(place, field, value) in changes {
        list[(place - 1) * FIELDS + field - 1] = value;
    }
    list
}

/// A card of definite rows: pickup, delay and cutoff of each.
const fn card_of(a: [u64; 3], b: [u64; 3], c: [u64; 3]) -> [u64; 3 * CARD_NUMBERS] {
    [a[0], a[1], a[2], 0, 0, b[0], b[1], b[2], 0, 0, c[0], c[1], c[2], 0, 0]
}

/// The list's own.
const GOOD: [u64; 3 * CARD_NUMBERS] = card_of([2, 0, 0], [2, 0, 0], [4, 200, 0]);

fn answer(list: &[u64]) -> Answer {
    whole(list, &mut [0; 3 * CARD_NUMBERS])
}

#[test]
fn bounds_of_each_field() {
    assert_eq!(answer(&list()), Answer::DONE);
    for place in 1..=3 {
        for (field, least, greatest) in TABLE {
            let refused = Answer::field(place as u64, field as u64);
            let at = |value| answer(&with(&[(place, field, value)]));
            assert_ne!(at(least), refused, "field {field}");
            assert_ne!(at(greatest), refused, "field {field}");
            assert_eq!(at(greatest + 1), refused);
            assert_eq!(at(u64::MAX), refused);
            if least > 0 {
                assert_eq!(at(least - 1), refused);
            }
        }
        for number in [0, place as u64 - 1, place as u64 + 1, u64::MAX] {
            assert_eq!(answer(&with(&[(place, 1, number)])), Answer::field(place as u64, 1));
        }
    }
}

#[test]
fn fields_in_order() {
    let (low, high) = ((1, 12, 8), (1, 13, 7));
    assert_eq!(answer(&with(&[low, high])), Answer::field(1, 12));
    assert_eq!(answer(&with(&[low, (1, 13, 8)])), Answer::DONE);
    assert_eq!(answer(&with(&[low, high, (1, 18, 2)])), Answer::field(1, 18));
    assert_eq!(answer(&with(&[low, high, (1, 22, 0)])), Answer::field(1, 22));
    assert_eq!(answer(&with(&[low, high, (1, 22, 0), (1, 21, 3)])), Answer::field(1, 21));
    assert_eq!(answer(&with(&[(1, 21, 3), (1, 20, 1)])), Answer::field(1, 20));
    assert_eq!(answer(&with(&[low, high, (2, 1, 0)])), Answer::field(1, 12));
    assert_eq!(answer(&with(&[(2, 5, 0), (2, 4, 0), (3, 1, 0)])), Answer::field(2, 4));
    assert_eq!(answer(&with(&[(1, 2, 0), (3, 18, 2)])), Answer::field(3, 18));
}

#[test]
fn feeders_in_order() {
    let tree = |place| Answer::at(TREE, place);
    for wrong in [0, 1, 4, 256] {
        assert_eq!(answer(&with(&[(1, 2, wrong)])), tree(1));
    }
    assert_eq!(answer(&with(&[(2, 2, 1), (3, 2, 3)])), tree(2));
    assert_eq!(answer(&with(&[(3, 2, 1)])), tree(3));
    assert_eq!(answer(&with(&[(3, 3, 3)])), tree(1));
    assert_eq!(answer(&with(&[(1, 2, 2), (2, 3, 3)])), tree(1));
    assert_eq!(answer(&with(&[(2, 3, 3)])), Answer::DONE);
    assert_eq!(answer(&with(&[(1, 2, 2)])), Answer::DONE);
    assert_eq!(answer(&with(&[(3, 2, 1), (1, 8, 1)])), tree(3));
}

#[test]
fn count_then_room_then_fields() {
    let bad = with(&[(1, 3, 0)]);
    assert_eq!(whole(&[], &mut []), Answer::at(COUNT, 0));
    assert_eq!(whole(&bad[..FIELDS + 1], &mut []), Answer::at(COUNT, 0));
    assert_eq!(whole(&bad[..FIELDS - 1], &mut []), Answer::at(COUNT, 0));
    assert_eq!(whole(&bad[..FIELDS].repeat(257), &mut []), Answer::at(COUNT, 0));
    assert_eq!(whole(&bad[..FIELDS].repeat(256), &mut [0; 1_279]), Answer::at(ROOM, 0));
    assert_eq!(whole(&bad[..FIELDS].repeat(256), &mut [0; 1_280]), Answer::field(1, 3));
    assert_eq!(whole(&bad, &mut [0; 14]), Answer::at(ROOM, 0));
}

#[test]
fn replacements_in_order() {
    let good = GOOD;
    let attempt = |list: &[u64], card: &[u64], place: u64, row: &[u64]| {
        replace(&mut list.to_vec(), &mut card.to_vec(), place, row).answer
    };
    let row = |field: usize, value: u64| with(&[(2, field, value)])[FIELDS..2 * FIELDS].to_vec();
    let same = row(1, 2);
    let bad_card = card_of([0, 0, 0], [2, 100_001, 0], [4, 200, MOST + 1]);
    assert_eq!(attempt(&list(), &good, 2, &same), Answer::DONE);
    assert_eq!(attempt(&list()[1..], &good[1..], 9, &[]), Answer::at(COUNT, 0));
    assert_eq!(attempt(&list(), &good[1..], 9, &[]), Answer::at(ROOM, 0));
    let edit = Answer::at(EDIT, 0);
    for (place, row) in [(0, &same), (4, &same), (1, &same), (2, &row(1, 3)), (2, &row(2, 1))] {
        assert_eq!(attempt(&with(&[(1, 3, 0)]), &bad_card, place, row), edit);
    }
    assert_eq!(attempt(&list(), &bad_card, 2, &same[1..]), edit);
    assert_eq!(attempt(&list(), &bad_card, 2, &[&same[..], &[0]].concat()), edit);
    assert_eq!(attempt(&with(&[(1, 3, 0)]), &bad_card, 2, &row(3, 0)), Answer::field(1, 3));
    assert_eq!(attempt(&with(&[(1, 3, 0)]), &bad_card, 2, &same), Answer::field(1, 3));
    assert_eq!(attempt(&with(&[(1, 2, 0)]), &bad_card, 2, &same), Answer::at(TREE, 1));
    assert_eq!(attempt(&list(), &bad_card, 2, &row(8, 1)), Answer::at(CARD, 1));
    assert_eq!(attempt(&list(), &good, 2, &row(8, 1)), Answer::at(OWN_ZONE, 2));
}

/// Each card number at its bounds and past them, the replaced row's too.
#[test]
fn bounds_of_each_card_number() {
    let bounds = [(0, 1, MOST), (1, 0, 100_000), (2, 0, MOST), (3, 0, 2), (4, 0, 1_500)];
    for (at, least, greatest) in bounds {
        for row in 0..3_usize {
            let attempt = |value: u64| {
                let mut card = GOOD;
                card[CARD_NUMBERS * row + at] = value;
                replace(&mut list(), &mut card, 3, &list()[2 * FIELDS..]).answer
            };
            let refused = Answer::at(CARD, row as u64 + 1);
            assert!(attempt(least) != refused && attempt(greatest) != refused);
            assert!(attempt(greatest + 1) == refused && attempt(u64::MAX) == refused);
            assert!(least == 0 || attempt(least - 1) == refused);
        }
    }
}

/// A card that is not the list's: off the path its numbers are read as found.
#[test]
fn replacement_reads_the_card_as_found() {
    let mut card = card_of([900, 1_000, 77], [2, 0, 0], [4, 200, 0]);
    let mut made = list();
    let refused = Replaced::refused(Answer::at(OWN_ZONE, 3));
    assert_eq!(replace(&mut made, &mut card, 2, &list()[FIELDS..2 * FIELDS]), refused);
    let mut rows: Vec<Row> = list().as_chunks::<FIELDS>().0.iter().map(Row::read).collect();
    rows[2].far = 100_000;
    let mut made = numbers_of(&rows);
    let row = made[FIELDS..2 * FIELDS].to_vec();
    assert_eq!(replace(&mut made, &mut card, 2, &row), Replaced::done(2));
    assert_eq!(card, card_of([900, 1_000, 77], [2, 0, 0], [992, 1_200, 0]));
}
