//! The laws of rows in lists that are accepted, and their multipliers at both ends [02 §3].

use crate::answers::LAW_NAMES;
use crate::run::{Group, Seen};
use second::curve::*;
use second::row::{Row, CARD_NUMBERS, FIELDS};
use second::whole::Settings;

pub fn law_name(law: u64) -> &'static str {
    LAW_NAMES[law as usize].1
}

/// None, all or some of the rows curves.
const ACCEPTED: Group = Group {
    name: "accepted lists by their laws",
    wanted: || (0..3).map(|laws| (laws, 0)).collect(),
    label: |item| ["definite", "curves", "mixed"][item.0 as usize].to_string(),
};

/// A curve's multiplier at its ends, and between them, as 0.
const MULTIPLIERS: Group = Group {
    name: "multipliers on accepted cards",
    wanted: || {
        let ends = [LEAST_MULTIPLIER, 0, MOST_MULTIPLIER];
        CURVES.into_iter().flat_map(|law| ends.map(|end| (law, end))).collect()
    },
    label: |item| {
        let multiplier = if item.1 == 0 { "between".to_string() } else { item.1.to_string() };
        format!("{} {multiplier}:", law_name(item.0))
    },
};

pub const OF_LISTS: [Group; 2] = [ACCEPTED, MULTIPLIERS];

/// An accepted list and its card.
pub fn note_accepted(list: &[u64], card: &[u64], seen: &mut Seen) {
    let rows: Vec<Row> = list.as_chunks::<FIELDS>().0.iter().map(Row::read).collect();
    let curves = rows.iter().filter(|row| row.law != DEFINITE).count();
    seen.note(&ACCEPTED, (if curves == 0 { 0 } else { 1 + u64::from(curves < rows.len()) }, 0));
    for (row, numbers) in rows.iter().zip(card.as_chunks::<CARD_NUMBERS>().0) {
        let multiplier = Settings::read(numbers).multiplier;
        let is_end = [LEAST_MULTIPLIER, MOST_MULTIPLIER].contains(&multiplier);
        if row.law != DEFINITE {
            seen.note(&MULTIPLIERS, (row.law, if is_end { multiplier } else { 0 }));
        }
    }
}
