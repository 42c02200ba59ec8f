//! Replacements where rows are keyed in secondary mA [02 §1]: CARD's limits, numbers
//! off the path, and rows keyed otherwise, by hand.

mod common;

use common::row;
use second::answer::{Answer, CARD, RANGE};
use second::generate::*;
use second::replace::{replace, Ledger, Replaced};
use second::row::{numbers_of, Row, CARD_NUMBERS, FIELDS};
use second::whole::whole;

const PRIMARY: [u64; 2] = [0, 0];

/// Accepted lists of each keying, their cards, and every number of a card at every
/// limit: refused with CARD or not.
#[test]
fn limits_of_each_card_number() {
    let mut compared = 0;
    for seed in 0..60 {
        let list =
            list_keyed(SHAPES[seed as usize % 4], 2 + seed % 5, KEYED[seed as usize % 3], seed);
        let mut card = vec![0; CARD_NUMBERS * list.len() / FIELDS];
        if whole(&list, &mut card) != Answer::DONE {
            continue;
        }
        for place in 1..=(list.len() / FIELDS) as u64 {
            for case in card_cases() {
                let mut lent = lend(&list, &card, place, &case);
                let Change { place: replaced, row } = lent.change;
                let given = replace(&mut lent.list, &mut lent.card, replaced, &row).answer;
                assert_eq!(given == Answer::at(CARD, place), case.is_refused, "{case:?}, {seed}");
                assert!(case.is_refused || given.number != CARD, "{case:?}, {seed}");
                compared += 1;
            }
        }
    }
    assert!(compared > 5_000);
}

/// A card of two rows, the first with that pickup.
fn lent_pickup(pickup: u64) -> [u64; 2 * CARD_NUMBERS] {
    [pickup, 0, 0, 0, 0, 1, 0, 0, 0, 0]
}

/// Off the path, 500,000 mA behind 20,000/1 A are 10,000,000,000 mA. At 100 V they ask
/// 2,200,000 mA at 500,000 V; a secondary mA less asks 2,199,995.6.
#[test]
fn greatest_lent_pickup() {
    let feeder = Row { volts: 500_000, ..row(2, 0, PRIMARY, 1) };
    let list = numbers_of(&[row(1, 2, [20_000, 1], 1), feeder]);
    for (lent, pickup) in [(500_000, 2_200_000), (499_999, 2_199_996)] {
        let mut card = lent_pickup(lent);
        let replaced = replace(&mut list.clone(), &mut card, 2, &feeder.numbers());
        assert_eq!((replaced, card[0], card[5]), (Replaced::done(1), lent, pickup));
    }
    // 1.1 times as much at equal volts, which no relay offers.
    let feeder = row(2, 0, PRIMARY, 1);
    let mut list = numbers_of(&[row(1, 2, [20_000, 1], 1), feeder]);
    let given = replace(&mut list, &mut lent_pickup(500_000), 2, &feeder.numbers());
    assert_eq!(given, Replaced::refused(Answer::at(RANGE, 2)));
}

/// The pickups after each of the changes in turn, and the rows worked out; the ledger
/// says the same.
fn check_series(rows: &[Row], changes: &[(Row, u64, &[u64])]) {
    let mut list = numbers_of(rows);
    let mut card = vec![0; CARD_NUMBERS * rows.len()];
    assert_eq!(whole(&list, &mut card), Answer::DONE);
    let mut ledger = Ledger::new(&list);
    for (new, worked_out, pickups) in changes {
        let replaced = replace(&mut list, &mut card, new.row, &new.numbers());
        let answer = ledger.feed(new.row, &new.numbers());
        assert_eq!(replaced, Replaced { answer, rows: ledger.rows() });
        assert_eq!(replaced, Replaced::done(*worked_out), "{new:?}");
        assert_eq!((&list[..], &card), (ledger.list(), &ledger.card_in(&card)));
        let given: Vec<u64> = card.iter().copied().step_by(CARD_NUMBERS).collect();
        assert_eq!(given, *pickups, "{new:?}");
    }
}

/// 14 mA of work ask 15.4 mA: 16 in primary, and 17.6 above; 11 behind 7/5 A, and 16.94
/// above, where 1.4 × 13 = 18.2 does for 17.6 and for 16.94 both.
#[test]
fn rows_keyed_otherwise_and_back() {
    let (primary, secondary) = (row(1, 2, PRIMARY, 14), row(1, 2, [7, 5], 14));
    let (above, secondary_above) = (row(2, 0, PRIMARY, 1), row(2, 0, [7, 5], 1));
    check_series(
        &[primary, above],
        &[
            (secondary, 2, &[11, 17]),
            (primary, 2, &[16, 18]),
            (secondary_above, 1, &[16, 13]),
            (secondary, 2, &[11, 13]),
            (row(1, 2, [14, 1], 14), 2, &[2, 22]),
            (above, 1, &[2, 31]),
            (primary, 2, &[16, 18]),
        ],
    );
}

/// The number keyed stays and the ratio does not: 11 are 15.4 mA, then 30.8, then 77.
#[test]
fn same_number_behind_another_ratio() {
    let low = |rated| Row { low: 11, ..row(1, 2, rated, 1) };
    check_series(
        &[low([7, 5]), row(2, 0, PRIMARY, 1)],
        &[
            (low([14, 5]), 2, &[11, 34]),
            (low([7, 1]), 2, &[11, 85]),
            (low([7, 5]), 2, &[11, 17]),
            (low(PRIMARY), 2, &[11, 13]),
        ],
    );
}
