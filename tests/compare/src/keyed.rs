//! How the rows of lists are keyed [02 §1], where lists are accepted, where one is
//! refused at a row, and where a row is keyed otherwise by a replacement in a series.

use crate::answers::name_of;
use crate::changes::Step;
use crate::run::{Group, Item, Seen};
use second::answer::*;
use second::replace::edited;
use second::row::{Row, CARD_NUMBERS, FIELDS};
use second::whole::Settings;

/// A row by its rated secondary; 0 is keyed in primary mA.
const SIDES: [u64; 3] = [0, 1, 5];

fn side_of(row: &Row) -> u64 {
    row.rated_secondary
}

fn side(rated_secondary: u64) -> String {
    match rated_secondary {
        0 => "primary".to_string(),
        rated => format!("{rated} A"),
    }
}

fn every_two() -> Vec<Item> {
    SIDES.into_iter().flat_map(|one| SIDES.map(|other| (one, other))).collect()
}

/// None, all or some of the rows keyed in secondary mA.
const ACCEPTED_KEYED: Group = Group {
    name: "accepted lists by how they are keyed",
    wanted: || (0..3).map(|keyed| (keyed, 0)).collect(),
    label: |item| ["primary", "secondary", "mixed"][item.0 as usize].to_string(),
};

const FEEDING: Group = Group {
    name: "feeding row and fed row in accepted lists",
    wanted: every_two,
    label: |item| format!("{} above {}:", side(item.0), side(item.1)),
};

/// Two rows fed by one, the first of them before the other.
const BESIDE: Group = Group {
    name: "rows fed by one row in accepted lists",
    wanted: every_two,
    label: |item| format!("{} before {}:", side(item.0), side(item.1)),
};

/// A pickup or cutoff that is no whole number of primary mA.
const FRACTIONS: Group = Group {
    name: "fractions on accepted cards",
    wanted: || vec![(0, 0), (1, 0)],
    label: |item| ["pickup", "cutoff"][item.0 as usize].to_string(),
};

const AT_A_ROW: [u64; 5] = [RANGE, OWN_ZONE, BACKUP, CURVE, DELAY];

/// The row that is refused, and the number.
const REFUSED: Group = Group {
    name: "rows that lists are refused at",
    wanted: || SIDES.into_iter().flat_map(|side| AT_A_ROW.map(|number| (side, number))).collect(),
    label: |item| format!("{} at {}:", name_of(item.1), side(item.0)),
};

const REFUSED_IN_SERIES: Group =
    Group { name: "rows that replacements in series are refused at", ..REFUSED };

pub const OF_LISTS: [Group; 5] = [ACCEPTED_KEYED, FEEDING, BESIDE, FRACTIONS, REFUSED];

/// The sides before and after, where that was done.
const REKEYED: Group = Group {
    name: "rows keyed otherwise in series",
    wanted: || every_two().into_iter().filter(|&sides| sides != (0, 0)).collect(),
    label: |item| format!("{} to {}:", side(item.0), side(item.1)),
};

/// By whether the new row is keyed in secondary mA.
const REKEYED_REFUSED: Group = Group {
    name: "rows keyed otherwise in series and refused",
    wanted: || {
        let refused = [RANGE, OWN_ZONE, BACKUP];
        refused.into_iter().flat_map(|number| [(0, number), (1, number)]).collect()
    },
    label: |(after, number)| {
        format!("to {} {}", ["primary", "secondary"][after as usize], name_of(number))
    },
};

/// A replaced row whose number on the card stays while its primary current doesn't.
const SAME_NUMBER: Group = Group {
    name: "rows keyed otherwise in series with the same pickup on the card",
    wanted: || vec![(0, 0)],
    label: |_| "behind another ratio".to_string(),
};

pub const OF_REPLACEMENTS: [Group; 4] = [REKEYED, REKEYED_REFUSED, SAME_NUMBER, REFUSED_IN_SERIES];

/// An accepted list and its card.
pub fn note_accepted(list: &[u64], card: &[u64], seen: &mut Seen) {
    let rows: Vec<Row> = list.as_chunks::<FIELDS>().0.iter().map(Row::read).collect();
    let secondary = rows.iter().filter(|row| row.ratio().is_some()).count();
    let keyed = match secondary {
        0 => 0,
        some if some == rows.len() => 1,
        _ => 2,
    };
    seen.note(&ACCEPTED_KEYED, (keyed, 0));
    // For each row the side of the last row before that it feeds too.
    let mut before = vec![None; rows.len() + 1];
    for row in &rows {
        let feeder = row.feeds_from as usize;
        if let Some(above) = feeder.checked_sub(1).map(|at| side_of(&rows[at])) {
            seen.note(&FEEDING, (above, side_of(row)));
        }
        if let Some(beside) = before[feeder].replace(side_of(row)) {
            seen.note(&BESIDE, (beside, side_of(row)));
        }
    }
    for (row, numbers) in rows.iter().zip(card.as_chunks::<CARD_NUMBERS>().0) {
        let Settings { pickup, cutoff, .. } = Settings::read(numbers);
        for (which, number) in [(0, pickup), (1, cutoff)] {
            if !row.primary(number).0.is_whole() {
                seen.note(&FRACTIONS, (which, 0));
            }
        }
    }
}

/// A refused list.
pub fn note_refused(list: &[u64], answer: Answer, seen: &mut Seen) {
    note_row_refused(&REFUSED, list, answer, seen);
}

fn note_row_refused(group: &Group, list: &[u64], answer: Answer, seen: &mut Seen) {
    if AT_A_ROW.contains(&answer.number) {
        let row = Row::read(&list.as_chunks().0[answer.place as usize - 1]);
        seen.note(group, (side_of(&row), answer.number));
    }
}

pub fn note_change(&Step { list, change, answer, cards }: &Step, seen: &mut Seen) {
    let Some(made) = edited(list, change.place, &change.row) else { return };
    note_row_refused(&REFUSED_IN_SERIES, &made, answer, seen);
    let at = change.place as usize - 1;
    let [old, new] = [list, &made].map(|list| Row::read(&list.as_chunks().0[at]));
    if old.ratio() == new.ratio() {
        return;
    }
    seen.note(&REKEYED_REFUSED, (u64::from(new.ratio().is_some()), answer.number));
    if answer == Answer::DONE {
        seen.note(&REKEYED, (side_of(&old), side_of(&new)));
        let [before, after] = cards.map(|card| Settings::read(&card.as_chunks().0[at]).pickup);
        if before == after && old.primary(before) != new.primary(after) {
            seen.note(&SAME_NUMBER, (0, 0));
        }
    }
}
