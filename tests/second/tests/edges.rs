//! Conditions at equality, D1 and D2 by every law [02 §3], and beside a fraction of a mA
//! [02 §1], in generated lists:
//! the oracle and the linear version agree there, and one off it the answer is another.

use second::answer::Answer;
use second::fast;
use second::generate::*;
use second::row::{CARD_NUMBERS, FIELDS};
use second::whole::whole;
use std::collections::BTreeMap;

/// Answer and card, by both.
fn carded(list: &[u64]) -> (Answer, Vec<u64>) {
    let mut card = vec![0; CARD_NUMBERS * list.len() / FIELDS];
    let mut fast_card = card.clone();
    let answer = whole(list, &mut card);
    assert_eq!(answer, fast::whole(list, &mut fast_card));
    assert_eq!(card, fast_card);
    (answer, card)
}

/// In the middle the condition stands as asked; a neighbour's answer is another,
/// and is the condition's refusal where it has one.
fn check(stands: Stands, conditions: &[Condition]) {
    let mut found = BTreeMap::new();
    for seed in 0..900 {
        let shape = SHAPES[seed as usize % 4];
        let (keyed, laws) = (KEYED[seed as usize % 3], LAW_MIXES[seed as usize / 12 % 3]);
        let list = list_with(shape, 1 + seed % 12, keyed, laws, seed);
        for &condition in conditions {
            let Some(edge) = at_edge(&list, condition, stands, seed) else { continue };
            let answers = edge.lists.map(|list| carded(&list));
            assert_eq!(answers[1].0, Answer::DONE, "{condition:?}, seed {seed}");
            let differs = answers[0] != answers[1] || answers[2] != answers[1];
            assert!(differs, "{condition:?}, seed {seed}");
            let mut given = answers.iter().map(|(answer, _)| answer.number);
            let refused = condition.refusal().is_none_or(|number| given.any(|of| of == number));
            assert!(refused, "{condition:?}, seed {seed}");
            let keyed = (edge.is_secondary, edge.is_fed_secondary);
            *found.entry((format!("{condition:?}"), keyed)).or_insert(0) += 1;
        }
    }
    println!("lists about edges ({stands:?}), secondary and fed secondary: {found:?}");
    for condition in conditions {
        for keyed in wanted(stands, *condition) {
            let times = found.get(&(format!("{condition:?}"), keyed)).copied().unwrap_or(0);
            assert!(times > 2, "{condition:?}, {keyed:?}");
        }
    }
}

/// Whether the row is secondary and, for P2, the fed row. In primary rows alone there
/// are no fractions.
fn wanted(stands: Stands, condition: Condition) -> Vec<(bool, bool)> {
    let of_p2 = [Condition::P2, Condition::RangeP2].contains(&condition);
    let mut keyed = vec![(false, false), (true, false), (false, true), (true, true)];
    keyed.retain(|&(own, fed)| (of_p2 || !fed) && (stands == Stands::Equal || own || fed));
    keyed
}

#[test]
fn each_condition_is_met_at_equality() {
    check(Stands::Equal, &CONDITIONS);
}

/// The conditions on currents.
#[test]
fn each_condition_is_met_beside_a_fraction() {
    let of_currents = CONDITIONS.into_iter().filter(|condition| !condition.is_timed());
    let conditions: Vec<Condition> = of_currents.collect();
    check(Stands::Between, &conditions);
}
