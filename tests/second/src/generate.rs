//! Cases for comparison, each fixed by its seed.

mod causes;
mod damage;
pub mod differentials;
mod edges;
mod laws;
mod lists;
mod multiples;
mod ratio_cards;
mod ratio_fields;
mod ratios;
mod replacements;
mod texts;
mod tiny;

pub use causes::{refused_for, Cause, Refused, CAUSES};
pub use damage::{corners, damaged, field_bounds, lent_card, Lent};
pub use edges::{at_edge, Condition, Edge, Stands, CONDITIONS};
pub use laws::{Laws, LAW_MIXES};
pub use lists::{list, list_keyed, list_shaped, list_with, zone_bound, Shape, SHAPES};
pub use multiples::{at_multiple, near_end_at, AtMultiple, Which, TARGETS};
pub use ratio_cards::{card_cases, lend, CardCase};
pub use ratio_fields::{with_ratio, RatioCase, RATIO_CASES};
pub use ratios::{Keyed, KEYED};
pub use replacements::{change, foreign, replacement, series, Change, Replacement};
pub use texts::{byte_damages, damaged_text, sized_text, text};
pub use tiny::tiny;

use crate::row::{Row, CARD_NUMBERS, FIELDS};
use crate::whole::{whole, Answer, Settings};

/// Rows and settings of a list that is accepted.
fn accepted(list: &[u64]) -> Option<(Vec<Row>, Vec<Settings>)> {
    let mut card = vec![0; CARD_NUMBERS * list.len() / FIELDS];
    if whole(list, &mut card) != Answer::DONE {
        return None;
    }
    let settings = card.as_chunks().0.iter().map(Settings::read);
    Some((list.as_chunks().0.iter().map(Row::read).collect(), settings.collect()))
}

/// Splitmix64.
pub struct Rng(u64);

impl Rng {
    pub fn new(seed: u64) -> Rng {
        Rng(seed)
    }

    pub fn any(&mut self) -> u64 {
        self.0 = self.0.wrapping_add(0x9e37_79b9_7f4a_7c15);
        let mut z = self.0;
        z = (z ^ (z >> 30)).wrapping_mul(0xbf58_476d_1ce4_e5b9);
        z = (z ^ (z >> 27)).wrapping_mul(0x94d0_49bb_1331_11eb);
        z ^ (z >> 31)
    }

    pub fn below(&mut self, bound: u64) -> u64 {
        self.any() % bound
    }

    pub fn between(&mut self, least: u64, greatest: u64) -> u64 {
        least + self.below(greatest - least + 1)
    }

    pub fn chance(&mut self, percent: u64) -> bool {
        self.below(100) < percent
    }

    pub fn pick<T: Copy>(&mut self, from: &[T]) -> T {
        from[self.below(from.len() as u64) as usize]
    }
}
