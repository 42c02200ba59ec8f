//! Pickups refused for a cause that is known beforehand [02 §2], in lists, in
//! replacements of each row that has to do with it, and in texts.

use crate::boundary::CARD_ROOM;
use crate::bounded_texts::{with_cells, Cell};
use crate::run::{Found, Group, Kind, Seen};
use crate::{changes, lists, texts};
use second::answer::{Answer, CURVE, DELAY, OWN_ZONE, RANGE};
use second::generate::*;
use second::row::FIELDS;

/// By the place in CAUSES.
pub const IN_LISTS: Group = Group {
    name: "lists by what P3 and P4 are at a row",
    wanted: || (0..CAUSES.len() as u64).map(|at| (at, 0)).collect(),
    label: |item| format!("{}:", CAUSES[item.0 as usize].name),
};

/// And by the row replaced: the first fed row, the second, the one that feeds both.
pub const IN_REPLACEMENTS: Group = Group {
    name: "replacements by what P3 and P4 are at a row",
    wanted: || (0..CAUSES.len() as u64).flat_map(|at| (0..3).map(move |row| (at, row))).collect(),
    label: |item| {
        let row = ["first", "second", "feeding"][item.1 as usize];
        format!("{} ({row} row)", CAUSES[item.0 as usize].name)
    },
};

pub const IN_TEXTS: Group = Group { name: "texts by what P3 and P4 are at a row", ..IN_LISTS };

pub const LISTS: Kind = Kind {
    name: "lists refused for a known cause",
    cases: 500,
    case: |_, seed, seen| {
        each(seed, seen, |at, _, refused, seen| {
            let given = lists::same(&lists::with_room(refused.list.clone(), seed), seen)?;
            is_due(&IN_LISTS, (at, 0), given, refused, seen)
        })
    },
};

pub const REPLACEMENTS: Kind = Kind {
    name: "replacements refused for a known cause",
    cases: 500,
    case: |_, seed, seen| each(seed, seen, replacements),
};

pub const TEXTS: [Kind; 2] = [
    Kind { name: "texts on each side of a cause", cases: 1, case: documented },
    Kind {
        name: "texts refused for a known cause",
        cases: 500,
        case: |_, seed, seen| {
            each(seed, seen, |at, _, refused, seen| {
                let given = texts::same(&text(&refused.list, seed), CARD_ROOM, seen)?;
                is_due(&IN_TEXTS, (at, 0), given, refused, seen)
            })
        },
    },
];

/// An accepted list with its card, made into one for each cause.
fn each(
    seed: u64,
    seen: &mut Seen,
    compare: impl Fn(u64, &Lent, &Refused, &mut Seen) -> Found,
) -> Found {
    let (list, _, card) = changes::accepted(seed);
    let accepted = Lent { list, card };
    for (at, cause) in (0..).zip(&CAUSES) {
        if let Some(refused) = refused_for(&accepted.list, cause, seed) {
            compare(at, &accepted, &refused, seen)?;
        }
    }
    Ok(())
}

fn is_due(
    group: &Group,
    item: (u64, u64),
    given: Answer,
    refused: &Refused,
    seen: &mut Seen,
) -> Found {
    if given != refused.answer {
        let (what, due) = ((group.label)(item), refused.answer);
        return Err(format!("{what} {given:?}, not {due:?}: {:?}", refused.list));
    }
    seen.note(group, item);
    Ok(())
}

/// Each of the rows in turn still the accepted list's, on that list's card.
fn replacements(at: u64, accepted: &Lent, refused: &Refused, seen: &mut Seen) -> Found {
    for (of, place) in (0..).zip(refused.rows) {
        let row = (place as usize - 1) * FIELDS..place as usize * FIELDS;
        let change = Change { place, row: refused.list[row.clone()].to_vec() };
        let (mut list, card) = (refused.list.clone(), accepted.card.clone());
        list[row.clone()].copy_from_slice(&accepted.list[row]);
        let given = changes::same(&Replacement { list, card, change }, seen)?;
        is_due(&IN_REPLACEMENTS, (at, of), given, refused, seen)?;
    }
    Ok(())
}

/// Section 6's list on each side of RANGE, OWN ZONE and BACKUP, worked out by hand;
/// then with its rows behind 300/5 and 600/5 A, where 5,300 are 318,000 mA, 2,950 are
/// 354,000 and 3,850 are 462,000 [02 §1].
fn documented(_: u64, _: u64, seen: &mut Seen) -> Found {
    let [volts, far, low, high, ceiling] = [4, 8, 12, 13, 17];
    let (range, own_zone) = (|row| Answer::at(RANGE, row), |row| Answer::at(OWN_ZONE, row));
    let (done, backup) = (Answer::DONE, Answer::backup(2, 1));
    let behind = |row: usize, step: &'static [u8], rated: &'static [u8]| -> [Cell; 5] {
        [
            (row, low, b"500"),
            (row, high, b"150000"),
            (row, 14, step),
            (row, 19, rated),
            (row, 20, b"5"),
        ]
    };
    let secondary = [behind(1, b"10", b"300"), behind(2, b"50", b"600")].concat();
    let cases: [(&[Cell], Answer); 8] = [
        (&[], done),
        (&[(1, high, b"5300")], done),
        (&[(1, high, b"5299")], range(1)),
        (&[(2, high, b"2949")], range(2)),
        (&[(2, far, b"531000")], done),
        (&[(2, far, b"530999")], own_zone(2)),
        (&[(2, low, b"3850"), (1, far, b"554400")], done),
        (&[(2, low, b"3850"), (1, far, b"554399")], backup),
    ];
    for (cells, due) in cases {
        is_given(&[&secondary[..], cells].concat(), due, seen)?;
    }
    let cases: [(&[Cell], Answer); 13] = [
        (&[(1, high, b"318000")], done),
        (&[(1, high, b"317999")], range(1)),
        (&[(2, high, b"360000")], done),
        (&[(2, high, b"359999")], range(2)),
        (&[(2, high, b"359999"), (2, far, b"1"), (2, ceiling, b"0")], range(2)),
        (&[(2, far, b"540000")], done),
        (&[(2, far, b"539999")], own_zone(2)),
        (&[(2, far, b"689999"), (2, low, b"460000"), (1, far, b"551999")], own_zone(2)),
        (&[(2, low, b"460000"), (1, far, b"552000")], done),
        (&[(2, low, b"460000"), (1, far, b"551999")], backup),
        (&[(2, low, b"460000"), (1, far, b"551999"), (2, ceiling, b"0")], backup),
        (&[(2, volts, b"70000"), (1, far, b"864000")], done),
        (&[(2, volts, b"70000"), (1, far, b"863999")], backup),
    ];
    for (cells, due) in cases {
        is_given(cells, due, seen)?;
    }
    curves(seen)
}

/// Section 6's list with curves [02 §3]: 636,000 mA are twice F1's pickup, where B has
/// 13.5 ms for each thousandth and 141 give 1,903.5; 720,000 mA are twice IN's, where 83
/// of C give 2,213.3, for 2,200, and at its own near end 32.
fn curves(seen: &mut Seen) -> Found {
    let [floor, ceiling, law, near] = [16, 17, 21, 22];
    let (curve, delay) = (|row| Answer::at(CURVE, row), |row| Answer::at(DELAY, row));
    let fed: [Cell; 2] = [(1, law, b"1"), (1, near, b"636000")];
    let free: [Cell; 4] =
        [(1, law, b"1"), (1, floor, b"0"), (1, ceiling, b"100000"), (2, ceiling, b"100000")];
    let above: [Cell; 1] = [(2, law, b"2")];
    let cases: [(&[Cell], Cell, Answer); 10] = [
        (&fed, (2, ceiling, b"2204"), Answer::DONE),
        (&fed, (2, ceiling, b"2203"), delay(2)),
        (&fed, (1, ceiling, b"1904"), Answer::DONE),
        (&fed, (1, ceiling, b"1903"), delay(1)),
        (&free, (1, near, b"318317"), curve(1)),
        (&free, (1, near, b"318318"), delay(1)),
        (&free, (1, near, b"318636"), Answer::DONE),
        (&above, (1, near, b"720000"), Answer::DONE),
        (&above, (1, near, b"360360"), Answer::DONE),
        (&above, (1, near, b"360359"), curve(2)),
    ];
    for (cells, cell, due) in cases {
        is_given(&[cells, &[cell]].concat(), due, seen)?;
    }
    let own: [Cell; 2] = [(2, law, b"2"), (1, near, b"720000")];
    is_given(&[&own[..], &[(2, ceiling, b"32")]].concat(), Answer::DONE, seen)?;
    is_given(&[&own[..], &[(2, ceiling, b"31")]].concat(), delay(2), seen)
}

fn is_given(cells: &[Cell], due: Answer, seen: &mut Seen) -> Found {
    let given = texts::same(&with_cells(cells), CARD_ROOM, seen)?;
    if given != due {
        return Err(format!("{given:?}, not {due:?}: {cells:?}"));
    }
    Ok(())
}
