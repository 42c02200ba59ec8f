//! Replacements in series of one field alone that D1 and D2 hang on, and what each does to
//! the row's own time setting and to its feeding row's [02 §3, §5].

use crate::changes::Step;
use crate::run::{Group, Item, Seen};
use second::answer::*;
use second::row::Row;
use second::whole::Settings;

const EFFECTS: [&str; 3] = ["stays", "changes", "refused"];

/// By the places in EFFECTS, of the row and of its feeding row.
const BY_DEVICE: Group = Group {
    name: "delays in series where only a device is replaced",
    wanted: || vec![(1, 0), (0, 1), (1, 1), (2, 0), (0, 2)],
    label: |item| format!("own {}, above {}:", EFFECTS[item.0 as usize], EFFECTS[item.1 as usize]),
};

/// The row's own card row always changes.
const BY_LAW: Group = Group {
    name: "times in series where only a law is replaced",
    wanted: || vec![(1, 0), (1, 1), (2, 0), (0, 2)],
    ..BY_DEVICE
};

const BY_NEAR_END: Group = Group {
    name: "times in series where only a greatest current at the near end is replaced",
    wanted: || vec![(0, 0), (1, 0), (0, 1), (1, 1), (2, 0), (0, 2)],
    ..BY_DEVICE
};

pub const GROUPS: [Group; 3] = [BY_DEVICE, BY_LAW, BY_NEAR_END];

pub fn note_change(&Step { list, change, answer, cards }: &Step, seen: &mut Seen) {
    let at = (change.place as usize).wrapping_sub(1);
    let (Some(old), Ok(new)) = (list.as_chunks().0.get(at), change.row.as_slice().try_into())
    else {
        return;
    };
    let (old, new) = (Row::read(old), Row::read(new));
    if new == old || new.feeds_from != old.feeds_from || old.feeds_from == 0 {
        return;
    }
    let effects: Item = (effect(old.row, answer, cards), effect(old.feeds_from, answer, cards));
    for (group, with) in [
        (&BY_DEVICE, Row { device: new.device, ..old }),
        (&BY_LAW, Row { law: new.law, ..old }),
        (&BY_NEAR_END, Row { near_greatest: new.near_greatest, ..old }),
    ] {
        if new == with {
            seen.note(group, effects);
        }
    }
}

/// By its place in EFFECTS, on delay, law and multiplier of a row.
fn effect(row: u64, answer: Answer, cards: [&[u64]; 2]) -> u64 {
    if [Answer::at(CURVE, row), Answer::at(DELAY, row)].contains(&answer) {
        return 2;
    }
    let [before, after] = cards.map(|card| Settings::read(&card.as_chunks().0[row as usize - 1]));
    let timed = |set: Settings| [set.delay, set.law, set.multiplier];
    u64::from(timed(before) != timed(after))
}
