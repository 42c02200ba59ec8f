//! The oracle against every combination, the linear version and the ledger,
//! over generated cases; each failure prints its seed.

use second::answer::{Answer, BACKUP, CURVE, DELAY, DONE, OWN_ZONE, RANGE};
use second::curve::LAWS;
use second::generate::*;
use second::replace::{replace, Ledger, Replaced};
use second::row::{Row, CARD_NUMBERS, FIELDS, MOST_CURRENT};
use second::study::{study, Current, Reading, StudyAnswer, Unit};
use second::whole::{fed_rows, settle, whole, Settings};
use second::{brute, fast};
use std::collections::BTreeMap;

/// Oracle and linear version on the same list and card; what they leave must agree.
fn both(lent: &Lent, seed: u64) -> (Answer, Vec<u64>) {
    let (mut card, mut fast_card) = (lent.card.clone(), lent.card.clone());
    let answer = whole(&lent.list, &mut card);
    assert_eq!(answer, fast::whole(&lent.list, &mut fast_card), "seed {seed}");
    assert_eq!(card, fast_card, "seed {seed}");
    let written = if answer == Answer::DONE { CARD_NUMBERS * lent.list.len() / FIELDS } else { 0 };
    assert_eq!(card[written..], lent.card[written..], "seed {seed}");
    (answer, card)
}

fn lent(list: Vec<u64>) -> Lent {
    let card = lent_card(CARD_NUMBERS * list.len() / FIELDS + 2, 1);
    Lent { list, card }
}

fn rows_of(list: &[u64]) -> Vec<Row> {
    list.as_chunks::<FIELDS>().0.iter().map(Row::read).collect()
}

#[test]
fn whole_finds_what_trying_all_finds() {
    let (mut seen, mut laws) = (BTreeMap::new(), BTreeMap::new());
    for seed in 0..1_500 {
        let list = tiny(seed);
        let rows = rows_of(&list);
        let mut card = vec![0; CARD_NUMBERS * rows.len()];
        let answer = whole(&list, &mut card);
        match brute::search(&rows) {
            Ok(settings) => {
                let numbers: Vec<u64> = settings.iter().flat_map(|set| set.numbers()).collect();
                assert_eq!((answer, card), (Answer::DONE, numbers), "seed {seed}");
            }
            Err(refusal) => assert_eq!(answer, refusal, "seed {seed}"),
        }
        *seen.entry((answer.number, answer.place, answer.field)).or_insert(0) += 1;
        for row in rows.iter().filter(|row| row.feeds_from != 0) {
            let above = rows[row.feeds_from as usize - 1].law;
            *laws.entry((above, row.law, answer.number == DONE)).or_insert(0) += 1;
        }
    }
    println!("tiny lists by (number, place, field): {seen:?}");
    println!("fed rows by (law above, law, done): {laws:?}");
    let pairs = LAWS.iter().flat_map(|&above| LAWS.map(|law| (above, law)));
    assert!(pairs.into_iter().all(|(above, law)| laws[&(above, law, true)] > 5));
    let in_each_row = [RANGE, OWN_ZONE, CURVE, DELAY];
    let of_rows = in_each_row.iter().flat_map(|&number| (1..=3).map(move |row| (number, row, 0)));
    let backups = [(BACKUP, 2, 1), (BACKUP, 3, 1), (BACKUP, 3, 2)];
    assert!(of_rows.chain(backups).all(|answer| seen[&answer] > 10));
    assert!(seen[&(DONE, 0, 0)] > 400);
}

/// Above fed rows with any settings, as a replacement finds them on a card: the
/// cause judged by the least pickup for P1 and P2 is that of all of these, and
/// there is one exactly where no available pickup fits [02 §2].
#[test]
fn cause_by_the_least_pickup_is_that_of_every_one() {
    let mut seen = BTreeMap::new();
    for seed in 0..4_000 {
        let rows = rows_of(&tiny(seed));
        let mut rng = Rng::new(seed);
        let any = |_: &Row| Settings { pickup: rng.between(1, 40), ..Settings::default() };
        let settings: Vec<Settings> = rows.iter().map(any).collect();
        for row in &rows {
            let fed = fed_rows(&rows, &settings, row.row);
            let of_pickup = |answer: &Answer| ![CURVE, DELAY].contains(&answer.number);
            let refusal = settle(row, &fed).err().filter(of_pickup);
            assert_eq!(refusal, brute::cause(row, &fed), "seed {seed}");
            assert_eq!(refusal.is_none(), brute::some_pickup_fits(row, &fed), "seed {seed}");
            *seen.entry(refusal.map(|answer| (answer.number, answer.field))).or_insert(0) += 1;
        }
    }
    println!("rows above any settings by (number, field): {seen:?}");
    let causes = [(RANGE, 0), (OWN_ZONE, 0), (BACKUP, 1), (BACKUP, 2)];
    assert!(causes.iter().all(|&cause| seen[&Some(cause)] > 50) && seen[&None] > 1_000);
}

#[test]
fn linear_version_agrees_on_lists() {
    for seed in 0..3_000 {
        both(&lent(list(seed)), seed);
        both(&damaged(seed), seed);
    }
}

#[test]
fn linear_version_agrees_at_bounds() {
    for seed in 0..20 {
        let list = list_shaped(SHAPES[seed as usize % 4], 1 + seed % 7, seed);
        for place in [1, list.len() / FIELDS] {
            for moved in field_bounds(&list, place as u64) {
                both(&lent(moved), seed);
            }
        }
    }
}

#[test]
fn linear_version_agrees_at_corners() {
    let mut seen = BTreeMap::new();
    for seed in 0..3_000 {
        let (answer, _) = both(&lent(corners(seed)), seed);
        *seen.entry(answer.number).or_insert(0) += 1;
    }
    println!("lists at corners by number: {seen:?}");
    let numbers = [DONE, DELAY, RANGE, OWN_ZONE, BACKUP, CURVE];
    assert!(seen.keys().copied().eq(numbers) && seen[&DONE] > 100);
}

#[test]
fn each_cause_is_given_as_made() {
    let mut found = BTreeMap::new();
    for seed in 0..400 {
        let list = list_shaped(SHAPES[seed as usize % 4], 1 + seed % 12, seed);
        for cause in &CAUSES {
            let Some(refused) = refused_for(&list, cause, seed) else { continue };
            let (answer, _) = both(&lent(refused.list), seed);
            assert_eq!(answer, refused.answer, "{}, seed {seed}", cause.name);
            *found.entry(cause.name).or_insert(0) += 1;
        }
    }
    println!("lists by cause: {found:?}");
    assert!(found.len() == CAUSES.len() && found.values().all(|&count| count > 20));
}

#[test]
fn long_chains_are_accepted_too() {
    for count in [100, 200, 256] {
        let done = |seed: &u64| {
            let answer = both(&lent(list_shaped(Shape::Chain, count, *seed)), *seed).0;
            answer == Answer::DONE
        };
        let accepted = (0..100).filter(done).count();
        println!("chains of {count} rows accepted: {accepted} of 100");
        assert!((20..=80).contains(&accepted));
    }
}

/// One series, compared with the ledger and, after each step, the whole calculation.
fn run_series(list: &[u64], seed: u64, seen: &mut BTreeMap<u64, u64>) {
    let start = lent_card(CARD_NUMBERS * list.len() / FIELDS + 3, seed);
    let (mut list, mut card) = (list.to_vec(), start.clone());
    if whole(&list, &mut card) != Answer::DONE {
        return;
    }
    let mut ledger = Ledger::new(&list);
    for Change { place, row } in series(&list.clone(), 30, seed) {
        let replaced = replace(&mut list, &mut card, place, &row);
        let answer = ledger.feed(place, &row);
        assert_eq!(replaced, Replaced { answer, rows: ledger.rows() }, "seed {seed}");
        assert_eq!(list, ledger.list(), "seed {seed}");
        let mut afresh = start.clone();
        assert_eq!(whole(&list, &mut afresh), Answer::DONE, "seed {seed}");
        assert_eq!(card, afresh, "seed {seed}");
        *seen.entry(answer.number).or_insert(0) += 1;
    }
}

#[test]
fn replacements_agree_with_the_ledger() {
    let mut seen = BTreeMap::new();
    for seed in 0..500 {
        run_series(&list(seed), seed, &mut seen);
    }
    let total: u64 = seen.values().sum();
    println!("replacements in series by number: {seen:?}");
    assert!([RANGE, OWN_ZONE, BACKUP, CURVE].iter().all(|number| seen[number] > 50));
    let refused = total - seen[&DONE];
    assert!(3 * refused >= total && 5 * refused <= 4 * total);
}

/// On any list and card a refusal leaves both alone.
#[test]
fn refused_replacements_change_nothing() {
    for seed in 0..2_000 {
        let lent = replacement(seed);
        let (mut list, mut card) = (lent.list.clone(), lent.card.clone());
        let replaced = replace(&mut list, &mut card, lent.change.place, &lent.change.row);
        if replaced.answer != Answer::DONE {
            assert_eq!((list, card), (lent.list, lent.card), "seed {seed}");
        }
    }
}

/// A single times at most 2^27 is exact as a double, so are its floor and ceiling.
#[test]
fn study_agrees_with_exact_doubles() {
    let mut rng = Rng::new(11);
    let half = Reading { unit: Unit::Ampere, value_bits: 0.5_f32.to_bits(), rated: 0 };
    let of_half = Some(Current { used: 500, lower: 500, upper: 500 });
    for case in 0..200_000 {
        let value_bits =
            if rng.chance(20) { rng.any() } else { rng.between(0x2000_0000, 0x4d00_0000) } as u32;
        let most = rng.pick(&[10, 1_000, MOST_CURRENT]);
        let rated = rng.between(1, most);
        let units = [(Unit::Ampere, 1_000), (Unit::Kiloampere, 1_000_000), (Unit::PerUnit, rated)];
        let (unit, scale) = rng.pick(&units);
        let exact = f64::from(f32::from_bits(value_bits)) * scale as f64;
        let (lower, upper) = (exact.floor() as u64, exact.ceil() as u64);
        let current = |used| {
            let usable = exact >= 0.0 && (1..=MOST_CURRENT).contains(&used);
            usable.then_some(Current { used, lower, upper })
        };
        let (up, down) = (current(upper), current(lower));
        let reading = Reading { unit, value_bits, rated };
        for (greatest, least, currents) in [
            (reading, half, (up, of_half)),
            (half, reading, (of_half, down)),
            (reading, reading, (up, down)),
        ] {
            let expected = match currents {
                (None, _) => StudyAnswer::refused(1),
                (_, None) => StudyAnswer::refused(2),
                (Some(greatest), Some(least)) => StudyAnswer::done(greatest, least),
            };
            assert_eq!(study(greatest, least), expected, "case {case}");
        }
    }
}
