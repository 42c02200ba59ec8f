//! How far a change goes on a card that isn't the list's [02 §8]: by hand, and on
//! any list and card against a climb that never stops.

use second::answer::*;
use second::generate::{change, foreign, Change, Lent};
use second::replace::{replace, Replaced};
use second::row::{field::*, numbers_of, path_of, Row, CARD_NUMBERS, FIELDS, LINE};
use second::whole::{fed_rows, settle, Settings};
use std::collections::BTreeMap;

/// Each row fed by the next. By P1 and P2: 110,000, then 121,000, 133,100 and
/// 154,000 as the relays offer them. D2 asks 300 more in each row.
fn chain() -> Vec<u64> {
    let row = |row, feeds_from, work, step, floor| Row {
        row,
        feeds_from,
        kind: LINE,
        volts: 35_000,
        work,
        selfstart: 1_000,
        return_factor: 1_000,
        far: 900_000,
        clear: 1_000_000,
        near: 1_800_000,
        factor: 1_300,
        low: step,
        high: 5_000_000,
        step,
        device: 1,
        floor,
        ceiling: 5_000,
        backed: 0,
        rated_primary: 0,
        rated_secondary: 0,
        law: 0,
        near_greatest: 1,
    };
    let (first, last) = (row(1, 2, 100_000, 1_000, 1_000), row(4, 0, 1, 50_000, 0));
    numbers_of(&[first, row(2, 3, 1, 1_000, 0), row(3, 4, 1, 10_000, 0), last])
}

type CardRow = [u64; CARD_NUMBERS];

const CUTOFF: u64 = 1_300_000;

/// A definite row's.
const fn card_row(pickup: u64, delay: u64, cutoff: u64) -> CardRow {
    [pickup, delay, cutoff, 0, 0]
}

const CARD: [CardRow; 4] = [
    card_row(110_000, 1_000, CUTOFF),
    card_row(121_000, 1_300, CUTOFF),
    card_row(140_000, 1_600, CUTOFF),
    card_row(200_000, 1_900, CUTOFF),
];

/// The chain with some fields changed, and the card with some rows changed; then
/// row 1 with one field changed.
fn give(
    fields: &[(usize, usize, u64)],
    lent: [CardRow; 4],
    (field, value): (usize, u64),
) -> (Replaced, Vec<CardRow>) {
    let mut list = chain();
    for &(place, field, value) in fields {
        list[(place - 1) * FIELDS + field - 1] = value;
    }
    let mut row = list[..FIELDS].to_vec();
    row[field - 1] = value;
    let (before, mut card) = (list.clone(), lent.concat());
    let replaced = replace(&mut list, &mut card, 1, &row);
    let done = replaced.answer == Answer::DONE;
    let expected = if done { [&row, &before[FIELDS..]].concat() } else { before };
    assert_eq!(list, expected);
    (replaced, card.as_chunks().0.to_vec())
}

/// Row 1's own card row, lent as another, is worked out and stops nothing.
#[test]
fn rows_past_the_stop_keep_what_they_had() {
    for (lent, change, own) in [
        (CARD[0], (FAR, 800_000), CARD[0]),
        (CARD[0], (CLEAR, 900_000), card_row(110_000, 1_000, 1_170_000)),
        ([7, 8, 9, 2, 1_500], (ROW, 1), CARD[0]),
    ] {
        const MOST: CardRow = [100_000_000, 100_000, 100_000_000, 2, 1_500];
        for past in [card_row(1, 0, 0), [77, 5, 9, 1, 3], MOST] {
            let given = give(&[], [lent, CARD[1], past, past], change);
            assert_eq!(given, (Replaced::done(2), vec![own, CARD[1], past, past]));
        }
    }
}

/// Row 2 is lent what work 100,900 asks of it; on the list's own card it changes.
#[test]
fn stop_at_numbers_that_are_not_the_lists() {
    let second = card_row(123_000, 1_300, CUTOFF);
    let lent = [[9, 9, 9, 1, 9], second, [9, 9, 9, 2, 9], [8, 8, 8, 0, 8]];
    let after = [card_row(111_000, 1_000, CUTOFF), lent[1], lent[2], lent[3]];
    assert_eq!(give(&[], lent, (WORK, 100_900)), (Replaced::done(2), after.to_vec()));
    let after = [after[0], after[1], CARD[2], CARD[3]];
    assert_eq!(give(&[], CARD, (WORK, 100_900)), (Replaced::done(3), after.to_vec()));
}

/// Row 2 with each choice of its numbers lent one off.
fn one_off() -> impl Iterator<Item = CardRow> {
    (1..32).map(|off| [0, 1, 2, 3, 4].map(|at| CARD[1][at] + (off >> at & 1)))
}

/// Some of its numbers the same, a row doesn't stop the climb; the next one does.
#[test]
fn stop_where_all_numbers_are_equal() {
    for row in one_off() {
        let lent = [CARD[0], row, CARD[2], [1; CARD_NUMBERS]];
        let after = vec![CARD[0], CARD[1], CARD[2], [1; CARD_NUMBERS]];
        assert_eq!(give(&[], lent, (ROW, 1)), (Replaced::done(3), after), "{row:?}");
    }
}

/// Row 3 has no settings above row 2's: past a stop at row 2 it refuses nothing,
/// and one off in row 2 it refuses. Row 4 has none either, past a stop at row 3.
#[test]
fn rows_past_the_stop_refuse_nothing() {
    let backup: &[_] = &[(2, BACKED, 1), (2, FAR, 239_999), (3, LOW, 200_000)];
    for (fields, refusal) in [
        (&[(3, HIGH, 133_099)][..], Answer::at(RANGE, 3)),
        (&[(3, FAR, 209_999)], Answer::at(OWN_ZONE, 3)),
        (backup, Answer::backup(3, 2)),
        (&[(3, CEILING, 1_599)], Answer::at(DELAY, 3)),
    ] {
        let stopped = (Replaced::done(2), CARD.to_vec());
        assert_eq!(give(fields, CARD, (FAR, 800_000)), stopped, "{fields:?}");
        for row in one_off() {
            let lent = [CARD[0], row, CARD[2], CARD[3]];
            let refused = (Replaced::refused(refusal), lent.to_vec());
            assert_eq!(give(fields, lent, (FAR, 800_000)), refused, "{fields:?}, {row:?}");
        }
    }
    for row in one_off() {
        let lent = [CARD[0], row, CARD[2], CARD[3]];
        let given = give(&[(4, CEILING, 1_899)], lent, (FAR, 800_000));
        assert_eq!(given, (Replaced::done(3), CARD.to_vec()));
    }
}

/// The path worked out to the source, whatever stays, or up to a refusal.
fn climb(list: &[u64], card: &[u64], place: u64) -> Vec<Result<CardRow, Answer>> {
    let rows: Vec<Row> = list.as_chunks().0.iter().map(Row::read).collect();
    let mut settings: Vec<Settings> = card.as_chunks().0.iter().map(Settings::read).collect();
    let mut climbed = Vec::new();
    for row in path_of(list, place) {
        let at = row as usize - 1;
        let settled = settle(&rows[at], &fed_rows(&rows, &settings, row));
        climbed.push(settled.map(|settled| settled.numbers()));
        let Ok(settled) = settled else { break };
        settings[at] = settled;
    }
    climbed
}

/// On any list and card: the path's rows are those of the full climb up to the
/// first feeding row that it leaves as lent, and as lent past it; a refusal is the
/// full climb's, and no feeding row before it was left as lent.
#[test]
fn stops_agree_with_a_climb_that_never_stops() {
    let mut seen = BTreeMap::new();
    for seed in 0..10_000 {
        let Lent { mut list, card: lent } = foreign(seed);
        let Change { place, row } = change(&list, seed);
        let (before, mut card) = (list.clone(), lent.clone());
        let Replaced { answer, rows } = replace(&mut list, &mut card, place, &row);
        assert_eq!(rows != 0, answer == Answer::DONE, "seed {seed}");
        let of_path = [RANGE, OWN_ZONE, BACKUP, CURVE, DELAY].contains(&answer.number);
        if answer != Answer::DONE && !of_path {
            continue;
        }
        let mut made = before;
        made[(place as usize - 1) * FIELDS..][..FIELDS].copy_from_slice(&row);
        let (path, climbed) = (path_of(&made, place), climb(&made, &lent, place));
        let lent_row = |at: usize| lent.as_chunks::<CARD_NUMBERS>().0[path[at] as usize - 1];
        let stays = |&at: &usize| climbed[at] == Ok(lent_row(at));
        let mut expected = lent.clone();
        match (1..climbed.len()).find(stays) {
            None if climbed.last().is_some_and(Result::is_err) => {
                assert_eq!(climbed.last(), Some(&Err(answer)), "seed {seed}");
            }
            stop => {
                let count = stop.map_or(path.len(), |at| at + 1);
                assert_eq!((answer, rows), (Answer::DONE, count as u64), "seed {seed}");
                for (&row, settled) in path.iter().zip(&climbed[..count]) {
                    let settled = settled.expect("worked out");
                    expected.as_chunks_mut().0[row as usize - 1] = settled;
                }
            }
        }
        assert_eq!(card, expected, "seed {seed}");
        let refused_past = climbed.last().is_some_and(Result::is_err);
        *seen.entry((answer == Answer::DONE, refused_past)).or_insert(0) += 1;
    }
    println!("replacements by done, and by a refusal on the way to the source: {seen:?}");
    assert!([(true, false), (true, true), (false, true)].iter().all(|way| seen[way] > 100));
}
