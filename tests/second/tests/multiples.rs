//! Times by their two inequalities, and generated lists with an M at a bound [02 §3].

use second::answer::{Answer, CURVE, DELAY, DONE};
use second::curve::*;
use second::fast;
use second::generate::*;
use second::row::{CARD_NUMBERS, FIELDS};
use second::whole::whole;
use std::collections::BTreeMap;

/// At every M: so many ms are the exact time or more, and one less is less. `compare`
/// holds the proved library to the same with every multiplier.
#[test]
fn times_are_the_exact_ones_rounded_up() {
    for multiple in STILL + 1..=MOST_MULTIPLE {
        let slopes = [(B, 13_500, multiple - 1_000), (C, 80_000_000, multiple.pow(2) - 1_000_000)];
        for (law, over, under) in slopes {
            for multiplier in [0, 1, 9, 10, 11, 99, 494, 1_000, 1_499, 1_500] {
                let (given, exact) = (time(law, multiple, multiplier), over * multiplier);
                let is_right = given * under >= exact && given * under < exact + under;
                assert!(is_right, "{given} ms: {law}, {multiple}, {multiplier}");
            }
        }
    }
}

/// CURVE at the row exactly where its M is 1.000. The row's own time at 1.001 is past every
/// ceiling, or else such lists are accepted.
#[test]
fn lists_with_each_multiple() {
    let mut seen = BTreeMap::new();
    for seed in 0..600 {
        let (keyed, laws) = (KEYED[seed as usize % 3], LAW_MIXES[1 + seed as usize % 2]);
        let list = list_with(SHAPES[seed as usize % 4], 1 + seed % 12, keyed, laws, seed);
        let kinds = CURVES.into_iter().flat_map(|law| [(law, Which::Own), (law, Which::There)]);
        for (law, which) in kinds {
            for target in TARGETS {
                let Some(made) = at_multiple(&list, law, which, target, seed) else { continue };
                let mut card = vec![0; CARD_NUMBERS * made.list.len() / FIELDS];
                let given = whole(&made.list, &mut card);
                assert_eq!(fast::whole(&made.list, &mut vec![0; card.len()]), given);
                if which == Which::Own || given != Answer::at(DELAY, made.at) {
                    let is_curve = given == Answer::at(CURVE, made.row);
                    assert_eq!(is_curve, target == STILL, "{law}, {which:?}, {target}, {seed}");
                }
                let key = (law, which == Which::Own, target, given.number);
                *seen.entry(key).or_insert(0) += 1;
            }
        }
    }
    println!("lists by law, own, M and number: {seen:?}");
    for (law, own) in CURVES.into_iter().flat_map(|law| [(law, true), (law, false)]) {
        for target in TARGETS {
            let is_too_long = own && target == STILL + 1;
            let beside = if is_too_long { DELAY } else { DONE };
            let due = if target == STILL { CURVE } else { beside };
            assert!(seen[&(law, own, target, due)] > 10, "{law}, {own}, {target}");
        }
    }
}
