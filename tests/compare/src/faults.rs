//! Faults put into an accepted list or its card, one number's at a time [01 §4,
//! 02 §2, §3].

use second::answer::*;
use second::conditions::backs_up;
use second::curve::CURVES;
use second::generate::{lent_card, zone_bound, Lent, Rng};
use second::row::{field, Row, CARD_NUMBERS, FIELDS, MOST_CURRENT};
use second::whole::Settings;

/// Those of the rows that such a fault can be put into.
pub fn open_to(number: u64, rows: &[u64], lent: &Lent) -> Vec<u64> {
    if number != BACKUP {
        return rows.to_vec();
    }
    let feeding: Vec<u64> = barely_seen(lent).iter().map(|fed| fed.feeds_from).collect();
    rows.iter().copied().filter(|row| feeding.contains(row)).collect()
}

/// The fed rows that keep their own zone with too little far for P4, by the
/// card's pickups, each with that far and backed.
fn barely_seen(lent: &Lent) -> Vec<Row> {
    let rows: Vec<Row> = lent.list.as_chunks().0.iter().map(Row::read).collect();
    let pickup = |row: &Row| {
        let card_row = &lent.card.as_chunks().0[row.row as usize - 1];
        row.primary(Settings::read(card_row).pickup)
    };
    let barely_seen = |fed: &Row| {
        let row = rows.get((fed.feeds_from as usize).checked_sub(1)?)?;
        let fed = Row { far: zone_bound(pickup(fed)), backed: 1, ..*fed };
        backs_up(row, pickup(row), &fed).filter(|sides| !sides.hold()).map(|_| fed)
    };
    rows.iter().filter_map(barely_seen).collect()
}

/// Puts a fault of that number into the list or the card, at that row if it has
/// one, and leaves what any other number's fault is put into.
pub fn add_fault(rng: &mut Rng, number: u64, row: u64, lent: &mut Lent) {
    const IN_RANGE: [usize; 12] = [3, 4, 6, 7, 9, 10, 11, 13, 14, 15, 19, 20];
    let rows = lent.list.len() / FIELDS;
    let at = row as usize - 1;
    let unseen = if number == BACKUP { barely_seen(lent) } else { Vec::new() };
    let mut set = |field: usize, value: u64| lent.list[at * FIELDS + field - 1] = value;
    match number {
        COUNT => lent.list.extend(lent_card(rng.between(1, FIELDS as u64 - 1) as usize, 1)),
        ROOM => lent.card.truncate(CARD_NUMBERS * rows - 1),
        FIELD => set(rng.pick(&IN_RANGE), u64::MAX),
        TREE => set(2, row),
        CARD => lent.card[at * CARD_NUMBERS] = 0,
        RANGE => set(5, MOST_CURRENT),
        OWN_ZONE => set(8, 1),
        BACKUP => {
            let fed: Vec<&Row> = unseen.iter().filter(|fed| fed.feeds_from == row).collect();
            let fed = rng.pick(&fed);
            lent.list.as_chunks_mut::<FIELDS>().0[fed.row as usize - 1] = fed.numbers();
        }
        // P1 asks for more than 1 mA.
        CURVE => {
            set(field::LAW, rng.pick(&CURVES));
            set(field::NEAR_GREATEST, 1);
        }
        DELAY => {
            set(16, 1);
            set(17, 0);
        }
        _ => unreachable!("a fault of lists and cards"),
    }
}
