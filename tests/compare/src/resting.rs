//! Several M that a row needs at most 1.000 at once [02 §3], on foreign cards, where all
//! kinds of them can be: CURVE names the row whose M comes first.

use crate::changes;
use crate::multiples::{accepted, at_row};
use crate::run::{Found, Group, Kind, Seen};
use second::answer::*;
use second::curve::*;
use second::generate::*;
use second::row::{numbers_of, Row};
use second::whole::Settings;

/// Of two fed rows: neither M is at rest, the row's own there, or the fed row's and so
/// the row's there; and with 1 in the second number the row's own.
pub const ORDERS: Group = Group {
    name: "CURVE where several M are at most 1.000",
    wanted: || (0..9).flat_map(|fed| [(fed, 0), (fed, 1)]).collect(),
    label: |(fed, own)| {
        let states = ["fine", "own there", "its own"];
        let [first, second] = [fed / 3, fed % 3].map(|state| states[state as usize]);
        format!("{}first {first}, second {second}:", ["", "own, "][own as usize])
    },
};

pub const REPLACEMENTS: Kind = Kind { name: "several M at most 1.000", cases: 1_500, case: orders };

/// A curve row that feeds two replaces itself: its own M at rest or not, and of the two
/// each way.
fn orders(count: u64, seed: u64, seen: &mut Seen) -> Found {
    let Some((rows, card)) = accepted(count, seed) else { return Ok(()) };
    let fed_by = |row: &Row| -> Vec<Row> {
        rows.iter().copied().filter(|fed| fed.feeds_from == row.row).collect()
    };
    let mut rng = Rng::new(seed);
    let feeds_two = |row: &&Row| row.law != DEFINITE && fed_by(row).len() > 1;
    let Some(row) = rows.iter().rev().find(feeds_two) else { return Ok(()) };
    let fed = fed_by(row);
    let second = rng.between(1, fed.len() as u64 - 1) as usize;
    let pair = [fed[rng.below(second as u64) as usize], fed[second]];
    for (fed, own) in (ORDERS.wanted)() {
        let states = [fed / 3, fed % 3];
        let Some(made) = put_at_rest(&rows, &card, row, own, pair, states) else { continue };
        let of_pair = pair.iter().zip(states).find(|(_, state)| *state != 0);
        let rests = of_pair.map(|(fed, state)| if state == 1 { row.row } else { fed.row });
        let due = if own == 1 { Some(row.row) } else { rests };
        let due = due.map_or(Answer::DONE, |place| Answer::at(CURVE, place));
        let given = changes::same(&made, seen)?;
        if given != due {
            return Err(format!("{} {given:?}, not {due:?}", (ORDERS.label)((fed, own))));
        }
        seen.note(&ORDERS, (fed, own));
    }
    Ok(())
}

fn put_at_rest(
    rows: &[Row],
    card: &[u64],
    row: &Row,
    own: u64,
    pair: [Row; 2],
    states: [u64; 2],
) -> Option<Replacement> {
    let (mut list, mut card) = (rows.to_vec(), card.to_vec());
    let pickup = at_row(&card, row.row).pickup;
    for (fed, state) in pair.iter().zip(states).filter(|(_, state)| *state != 0) {
        let lent = Settings { law: C, multiplier: LEAST_MULTIPLIER, ..at_row(&card, fed.row) };
        let (of, of_pickup) = if state == 1 { (row, pickup) } else { (fed, lent.pickup) };
        list[fed.row as usize - 1].near_greatest = near_end_at(of, of_pickup, fed, STILL)?;
        card.as_chunks_mut().0[fed.row as usize - 1] = lent.numbers();
    }
    let mut new = *row;
    if own == 1 {
        new.near_greatest = near_end_at(row, pickup, row, STILL)?;
    }
    let change = Change { place: row.row, row: new.numbers().to_vec() };
    Some(Replacement { list: numbers_of(&list), card, change })
}
