//! Every number, and every field of FIELD, turns up in the generated cases;
//! ordinary lists are accepted about half the time.

use second::answer::*;
use second::curve::DEFINITE;
use second::differential::{differential, BLOCKED, HOLD, SLOPES, TRIP};
use second::generate::*;
use second::replace::replace;
use second::row::{field, CARD_NUMBERS, FIELDS};
use second::study::{study, Reading, Unit};
use second::text::{card, MOST_BYTES};
use second::whole::whole;
use std::collections::BTreeMap;

type Seen = BTreeMap<u64, u64>;

fn answer_for(list: &[u64]) -> Answer {
    whole(list, &mut vec![0; CARD_NUMBERS * list.len() / FIELDS])
}

fn count(seen: &mut Seen, number: u64) {
    *seen.entry(number).or_insert(0) += 1;
}

/// The third number is the field or, for BACKUP, the fed row, and 0 otherwise.
fn note_field(fields: &mut Seen, answer: Answer) {
    assert_eq!(answer.field != 0, [FIELD, BACKUP].contains(&answer.number), "{answer:?}");
    if answer.number == FIELD {
        count(fields, answer.field);
    }
}

fn assert_seen(seen: &Seen, numbers: &[u64]) {
    let found: Vec<u64> = seen.keys().copied().collect();
    assert_eq!(found, numbers);
}

#[test]
fn ordinary_lists_are_accepted_about_half_the_time() {
    let mut seen = Seen::new();
    (0..2_000).for_each(|seed| count(&mut seen, answer_for(&list(seed)).number));
    println!("2,000 lists by number: {seen:?}");
    assert!((600..=1_400).contains(&seen[&DONE]));
}

/// However they are keyed [02 §1], of whichever laws [02 §3].
#[test]
fn lists_of_each_keying_and_law_are_accepted() {
    for (keyed, laws) in KEYED.into_iter().flat_map(|keyed| LAW_MIXES.map(|laws| (keyed, laws))) {
        let accepted = |seed: &u64| {
            let list = list_with(SHAPES[*seed as usize % 4], 1 + seed % 64, keyed, laws, *seed);
            answer_for(&list) == Answer::DONE
        };
        let accepted = (0..400).filter(accepted).count();
        println!("{keyed:?} {laws:?} lists accepted: {accepted} of 400");
        assert!((120..=280).contains(&accepted));
    }
}

/// Of the curve lists that are accepted many have no definite row, at each length.
#[test]
fn lists_of_curves_alone_are_accepted() {
    for (shape, rows) in SHAPES.into_iter().flat_map(|shape| [8, 64, 256].map(|rows| (shape, rows)))
    {
        let is_curves = |seed: &u64| {
            let list = list_with(shape, rows, Keyed::Primary, Laws::Curves, *seed);
            let law = |row: &[u64; FIELDS]| row[field::LAW - 1];
            answer_for(&list) == Answer::DONE
                && list.as_chunks().0.iter().all(|row| law(row) != DEFINITE)
        };
        let curves = (0..60).filter(is_curves).count();
        println!("{shape:?} of {rows} rows, curves alone: {curves} of 60");
        assert!(curves > 5);
    }
}

/// The benchmark compares with builds from before [02 §1] on these lists: a sum of
/// their first 18 fields, made with the last such version.
#[test]
fn primary_lists_are_those_of_earlier_versions() {
    let mut sum = 0_u64;
    for (shape, rows, seed) in [(0, 64, 3), (1, 128, 4), (2, 256, 5), (3, 256, 6)] {
        let list = list_keyed(SHAPES[shape], rows, Keyed::Primary, seed);
        for row in list.as_chunks::<FIELDS>().0 {
            assert_eq!(row[18..], [0, 0, 0, row[9]]);
            row[..18].iter().for_each(|&value| sum = sum.wrapping_mul(31).wrapping_add(value));
        }
    }
    assert_eq!(sum, 14_913_606_987_588_754_405);
}

#[test]
fn whole_calculations_give_every_number_and_field() {
    let (mut seen, mut fields) = (Seen::new(), Seen::new());
    let mut note = |answer: Answer| {
        note_field(&mut fields, answer);
        count(&mut seen, answer.number);
    };
    for seed in 0..1_000 {
        let Lent { list: damaged, mut card } = damaged(seed);
        note(whole(&damaged, &mut card));
        note(answer_for(&list(seed)));
    }
    field_bounds(&list(3), 1).iter().for_each(|list| note(answer_for(list)));
    println!("whole calculations by number: {seen:?}, by field: {fields:?}");
    assert_seen(&seen, &[DONE, COUNT, ROOM, FIELD, TREE, DELAY, RANGE, OWN_ZONE, BACKUP, CURVE]);
    assert_seen(&fields, &(1..=FIELDS as u64).collect::<Vec<_>>());
}

#[test]
fn replacements_give_every_number_and_field() {
    let (mut seen, mut fields) = (Seen::new(), Seen::new());
    for seed in 0..6_000 {
        let Replacement { mut list, mut card, change } = replacement(seed);
        let answer = replace(&mut list, &mut card, change.place, &change.row).answer;
        note_field(&mut fields, answer);
        count(&mut seen, answer.number);
    }
    println!("replacements by number: {seen:?}, by field: {fields:?}");
    let of_rows = [DELAY, CARD, EDIT, RANGE, OWN_ZONE, BACKUP, CURVE];
    assert_seen(&seen, &[&[DONE, COUNT, ROOM, FIELD, TREE], &of_rows[..]].concat());
    assert!((3..=FIELDS as u64).all(|field| fields.contains_key(&field)));
}

#[test]
fn studies_give_every_place() {
    let mut rng = Rng::new(5);
    let mut seen = Seen::new();
    let mut reading = || Reading {
        unit: rng.pick(&[Unit::Ampere, Unit::Kiloampere, Unit::PerUnit]),
        value_bits: if rng.chance(50) {
            rng.any() as u32
        } else {
            rng.between(0x3000_0000, 0x4900_0000) as u32
        },
        rated: if rng.chance(90) {
            rng.between(1, 100_000_000)
        } else {
            rng.pick(&[0, 100_000_001, u64::MAX])
        },
    };
    for _ in 0..5_000 {
        let answer = study(reading(), reading());
        count(&mut seen, 10 * answer.number + answer.place);
    }
    println!("studies by number and place: {seen:?}");
    assert_seen(&seen, &[10 * DONE, 10 * STUDY, 10 * STUDY + 1, 10 * STUDY + 2]);
}

/// Each kind of them; an accepted one by its slope and verdict.
#[test]
fn differentials_give_every_place_slope_and_verdict() {
    let (mut places, mut given) = (Seen::new(), Seen::new());
    for seed in 0..3_000 {
        for inputs in [
            differentials::in_range(seed),
            differentials::about_settings(seed),
            differentials::damaged(seed),
        ] {
            let answer = differential(&inputs);
            count(&mut places, 10 * answer.number + answer.place);
            if answer.number == DONE {
                count(&mut given, 10 * answer.slope + answer.verdict);
            }
        }
    }
    println!("differentials by number and place: {places:?}, by slope and verdict: {given:?}");
    let inputs = (1..=8).map(|place| 10 * INPUT + place);
    let numbers: Vec<u64> = [10 * DONE].into_iter().chain(inputs).chain([10 * SLOPE]).collect();
    assert_seen(&places, &numbers);
    let verdicts = |slope: u64| [TRIP, HOLD, BLOCKED].map(|verdict| 10 * slope + verdict);
    assert_seen(&given, &SLOPES.map(verdicts).concat());
}

/// The refusal number printed, 0 for a card.
fn printed_number(text: &[u8]) -> u64 {
    let printed = String::from_utf8_lossy(&card(text)).into_owned();
    match printed.strip_prefix("refused,place,field\r\n") {
        Some(line) => line.split(',').next().unwrap().parse().unwrap(),
        None => DONE,
    }
}

#[test]
fn texts_give_every_number_of_theirs() {
    let mut seen = Seen::new();
    for seed in 0..800 {
        let list = list(seed);
        let whole_text = text(&list, seed);
        let number = printed_number(&whole_text);
        assert_eq!(number, answer_for(&list).number, "seed {seed}");
        count(&mut seen, number);
        count(&mut seen, printed_number(&damaged_text(&whole_text, seed)));
        count(&mut seen, printed_number(&text(&damaged(seed).list, seed)));
    }
    println!("texts by number: {seen:?}");
    assert_seen(&seen, &[DONE, TEXT, COUNT, FIELD, TREE, DELAY, RANGE, OWN_ZONE, BACKUP, CURVE]);
}

#[test]
fn every_byte_of_a_text_is_damaged() {
    let mut seen = Seen::new();
    let lists = (0..).map(|seed| list_shaped(Shape::Chain, 2, seed));
    let accepted = lists.into_iter().find(|list| answer_for(list) == Answer::DONE);
    let whole_text = text(&accepted.expect("an accepted list"), 9);
    for at in 0..whole_text.len() {
        byte_damages(&whole_text, at)
            .iter()
            .for_each(|text| count(&mut seen, printed_number(text)));
    }
    println!("byte damages by number: {seen:?}");
    assert!(seen[&TEXT] > 1_000 && seen[&FIELD] > 10);
}

#[test]
fn size_is_tested_first() {
    assert_eq!(sized_text(MOST_BYTES).len(), MOST_BYTES);
    assert_eq!(card(&sized_text(MOST_BYTES)), b"refused,place,field\r\n2,0,0\r\n");
    assert_eq!(card(&sized_text(MOST_BYTES + 1)), b"refused,place,field\r\n1,0,0\r\n");
    let mut bad_late = sized_text(MOST_BYTES);
    bad_late[MOST_BYTES - 1] = b'x';
    assert!(card(&bad_late).starts_with(b"refused,place,field\r\n1,"));
}
