//! Conditions at equality and one off it, D1 and D2 by every law, and where a fraction of
//! a mA lets none be equal [01 §3, 02 §1, §2, §3], in lists and in replacements of the row
//! that is moved.

use crate::answers::name_of;
use crate::run::{Found, Group, Item, Kind, Seen};
use crate::{changes, lists};
use second::answer::*;
use second::generate::*;
use second::row::{CARD_NUMBERS, FIELDS};
use second::whole::whole;

const SIDES: [&str; 3] = ["-1", "=", "+1"];

fn each_side(of: impl Iterator<Item = u64>) -> Vec<Item> {
    of.flat_map(|at| (0..SIDES.len() as u64).map(move |side| (at, side))).collect()
}

/// A condition by its place in CONDITIONS; one below, at, one above equality.
const EQUALITIES: Group = Group {
    name: "conditions below, at and above equality",
    wanted: || each_side(0..CONDITIONS.len() as u64),
    label: |item| format!("{:?} {}", CONDITIONS[item.0 as usize], SIDES[item.1 as usize]),
};

/// A condition by its place, and the number that refuses the list one off its equality.
const ONE_OFF: Group = Group {
    name: "refusals one off equality",
    wanted: || {
        let refusal = |(at, of): (u64, Condition)| of.refusal().map(|number| (at, number));
        (0..).zip(CONDITIONS).filter_map(refusal).collect()
    },
    label: |item| format!("{} by {:?}", name_of(item.1), CONDITIONS[item.0 as usize]),
};

/// A condition on a current as it stands somewhere, by whether the row is keyed in
/// secondary mA and, for P2, the fed row.
#[derive(Clone, Copy, PartialEq, Eq)]
struct Way {
    stands: Stands,
    condition: Condition,
    is_secondary: bool,
    is_fed_secondary: bool,
}

impl Way {
    fn label(self) -> String {
        let Way { stands, condition, is_secondary, is_fed_secondary } = self;
        let stands = if stands == Stands::Equal { "" } else { " beside a fraction" };
        let rows = match (is_secondary, is_fed_secondary) {
            (true, true) => " of both",
            (true, false) => "",
            (false, _) => " of the fed row",
        };
        format!("{condition:?}{rows}{stands}")
    }
}

/// Every way with a secondary row.
fn ways() -> Vec<Way> {
    use Condition::*;
    let own = [P1, P2, P3, P4, RangeP1, RangeP2, CutoffClear, CutoffNearLine, CutoffNearOther];
    let own = own.map(|condition| (condition, true, false));
    let fed = [P2, RangeP2].map(|condition| [(condition, false, true), (condition, true, true)]);
    let all = [&own[..], fed.as_flattened()].concat();
    let of = |stands| {
        let way = move |&(condition, is_secondary, is_fed_secondary): &(Condition, bool, bool)| {
            Way { stands, condition, is_secondary, is_fed_secondary }
        };
        all.iter().map(way).collect::<Vec<Way>>()
    };
    [of(Stands::Equal), of(Stands::Between)].concat()
}

/// By the place in `ways`.
const SECONDARY: Group = Group {
    name: "conditions of secondary rows below, at and above equality",
    wanted: || each_side(0..ways().len() as u64),
    label: |item| format!("{} {}", ways()[item.0 as usize].label(), SIDES[item.1 as usize]),
};

const SECONDARY_ONE_OFF: Group = Group {
    name: "refusals one off equality of secondary rows",
    wanted: || {
        let refusal = |(at, way): (u64, Way)| way.condition.refusal().map(|number| (at, number));
        (0..).zip(ways()).filter_map(refusal).collect()
    },
    label: |item| format!("{} by {}", name_of(item.1), ways()[item.0 as usize].label()),
};

/// By the place in CONDITIONS: the sides are equal, and a primary current in them is
/// no whole number of mA. P3 and the cutoff's near are never equal there.
const EQUAL_FRACTIONS: Group = Group {
    name: "conditions at equality with a fraction",
    wanted: || {
        use Condition::*;
        let can_be = |of: &Condition| matches!(of, P1 | P2 | RangeP1 | RangeP2 | CutoffClear);
        (0..).zip(CONDITIONS).filter(|(_, of)| can_be(of)).map(|(at, _)| (at, 0)).collect()
    },
    label: |item| format!("{:?}", CONDITIONS[item.0 as usize]),
};

pub const OF_LISTS: [Group; 5] =
    [EQUALITIES, ONE_OFF, SECONDARY, SECONDARY_ONE_OFF, EQUAL_FRACTIONS];

pub const OF_REPLACEMENTS: [Group; 5] = [
    Group { name: "replacements below, at and above equality", ..EQUALITIES },
    Group { name: "replacements refused one off equality", ..ONE_OFF },
    Group { name: "replacements of secondary rows below, at and above equality", ..SECONDARY },
    Group { name: "replacements of secondary rows refused one off equality", ..SECONDARY_ONE_OFF },
    Group { name: "replacements at equality with a fraction", ..EQUAL_FRACTIONS },
];

pub const LISTS: Kind = Kind { name: "conditions at equality", cases: 3_000, case: of_list };

pub const REPLACEMENTS: Kind =
    Kind { name: "replacements at equality", cases: 3_000, case: of_replacement };

fn of_list(count: u64, seed: u64, seen: &mut Seen) -> Found {
    each_edge(count, seed, &OF_LISTS, seen, |lists, side, seen| {
        lists::same(&lists::with_room(lists[side].clone(), seed), seen)
    })
}

/// The row that is moved replaced in the list at equality, on its own card.
fn of_replacement(count: u64, seed: u64, seen: &mut Seen) -> Found {
    each_edge(count, seed, &OF_REPLACEMENTS, seen, |lists, side, seen| {
        let [rows, other] = [1, 0].map(|of| lists[of].as_chunks::<FIELDS>().0);
        let moved = rows.iter().zip(other).position(|(row, other)| row != other);
        let at = moved.expect("a row that is moved");
        let mut card = lent_card(CARD_NUMBERS * rows.len(), seed);
        whole(&lists[1], &mut card);
        let row = lists[side][at * FIELDS..][..FIELDS].to_vec();
        let change = Change { place: at as u64 + 1, row };
        changes::same(&Replacement { list: lists[1].clone(), card, change }, seen)
    })
}

/// Each condition's list at its edge with its neighbours: compares the three one by
/// one, and notes side and refusal.
fn each_edge(
    count: u64,
    seed: u64,
    [equalities, one_off, secondary, secondary_one_off, fractions]: &[Group; 5],
    seen: &mut Seen,
    compare: impl Fn(&[Vec<u64>; 3], usize, &mut Seen) -> Result<Answer, String>,
) -> Found {
    let (shape, keyed) = (SHAPES[count as usize % 4], KEYED[count as usize / 4 % 3]);
    let laws = LAW_MIXES[count as usize / 12 % 3];
    let list = list_with(shape, 1 + count % 12, keyed, laws, seed);
    for (at, condition) in (0..).zip(CONDITIONS) {
        for stands in [Stands::Equal, Stands::Between] {
            let Some(edge) = at_edge(&list, condition, stands, seed) else { continue };
            let Edge { lists, is_secondary, is_fed_secondary, is_whole } = edge;
            let way = Way { stands, condition, is_secondary, is_fed_secondary };
            let way = ways().iter().position(|of| *of == way).map(|at| at as u64);
            for side in 0..lists.len() {
                let answer = compare(&lists, side, seen)?;
                if stands == Stands::Equal {
                    seen.note(equalities, (at, side as u64));
                    seen.note(one_off, (at, answer.number));
                }
                if let Some(way) = way {
                    seen.note(secondary, (way, side as u64));
                    seen.note(secondary_one_off, (way, answer.number));
                }
            }
            if stands == Stands::Equal && !is_whole {
                seen.note(fractions, (at, 0));
            }
        }
    }
    Ok(())
}
