//! One number of a lent card at the limits of CARD, by how its row is keyed in the
//! list before a replacement and after it [02 §1]; law and multiplier among them
//! [02 §3].

use super::ratios::behind;
use super::{Change, Replacement};
use crate::current::Ratio;
use crate::row::*;

#[derive(Clone, Copy, Debug)]
pub struct CardCase {
    /// Whether the row is the replaced one; another row is keyed the same after.
    pub is_replaced: bool,
    pub was_secondary: bool,
    pub is_secondary: bool,
    pub column: usize,
    pub value: u64,
    pub is_refused: bool,
}

/// Every number at its limits and past them, by how the row is keyed.
pub fn card_cases() -> Vec<CardCase> {
    const KEYED: [(bool, bool, bool); 6] = [
        (false, false, false),
        (false, true, true),
        (true, false, false),
        (true, false, true),
        (true, true, false),
        (true, true, true),
    ];
    KEYED.into_iter().flat_map(|(is_replaced, was, is)| cases_of(is_replaced, was, is)).collect()
}

fn cases_of(is_replaced: bool, was_secondary: bool, is_secondary: bool) -> Vec<CardCase> {
    let least = [1, 0, 0, 0, 0];
    let current = if is_secondary && !is_replaced { 500_000 } else { 100_000_000 };
    let most = [current, 100_000, current, 2, 1_500];
    let currents = &[0, 1, 500_000, 500_001, 100_000_000, 100_000_001][..];
    let laws = &[0, 1, 2, 3, u64::MAX][..];
    let multipliers = &[0, 9, 10, 1_500, 1_501, u64::MAX][..];
    let values = [currents, &[0, 100_000, 100_001], currents, laws, multipliers];
    let case = |column: usize, value: u64| {
        let is_refused = value < least[column] || value > most[column];
        CardCase { is_replaced, was_secondary, is_secondary, column, value, is_refused }
    };
    let of = |column: usize| values[column].iter().map(move |&value| case(column, value));
    (0..CARD_NUMBERS).flat_map(of).collect()
}

/// The case at a row of an accepted list with its card, of two rows or more; where it
/// isn't the replaced one, the next row is, in place of itself.
pub fn lend(list: &[u64], card: &[u64], place: u64, case: &CardCase) -> Replacement {
    let (mut list, mut card) = (list.to_vec(), card.to_vec());
    let count = (list.len() / FIELDS) as u64;
    let rows = list.as_chunks_mut::<FIELDS>().0;
    let row = Row::read(&rows[place as usize - 1]);
    rows[place as usize - 1] = keyed(&row, case.was_secondary).numbers();
    let replaced = if case.is_replaced { place } else { place % count + 1 };
    let mut new = rows[replaced as usize - 1].to_vec();
    if case.is_replaced {
        new = keyed(&row, case.is_secondary).numbers().to_vec();
    }
    // The row may have been keyed otherwise, so that its numbers mean others.
    let at = (place as usize - 1) * CARD_NUMBERS;
    card[at] = card[at].min(MOST_SECONDARY);
    card[at + 2] = card[at + 2].min(MOST_SECONDARY);
    card[at + case.column] = case.value;
    Replacement { list, card, change: Change { place: replaced, row: new } }
}

/// The row on the side asked for, if it isn't there.
fn keyed(row: &Row, is_secondary: bool) -> Row {
    match (row.ratio(), is_secondary) {
        (None, true) => {
            let primary = row.high.div_ceil(MOST_SECONDARY);
            behind(row, Some(Ratio { primary, secondary: 1 }))
        }
        (Some(_), false) => behind(row, None),
        _ => *row,
    }
}
