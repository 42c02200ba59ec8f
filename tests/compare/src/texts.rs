//! Texts of lists and what is printed of them [01 §6, 02 §2, §3].

use crate::answers::{agree, name_of, NAMING};
use crate::boundary::{self, CARD_ROOM};
use crate::bounded_texts;
use crate::run::{Found, Group, Kind, Seen};
use second::answer::*;
use second::generate::*;
use second::row::FIELDS;
use second::text::{card, printed, Printed, MOST_BYTES};
use std::cmp::Ordering;

/// A number, and whether its place and its third number name anything: TEXT gives
/// a line or none, by what is wrong.
pub const NUMBERS: Group = Group {
    name: "numbers given of texts",
    wanted: || {
        let rows = [TEXT, TREE, RANGE, OWN_ZONE, CURVE, DELAY].map(|number| (number, 1));
        let more = NAMING.map(|number| (number, 2));
        [&[(DONE, 0), (TEXT, 0), (COUNT, 0), (ROOM, 0)], &rows[..], &more].concat()
    },
    label: |item| {
        let place = ["", " at a place", " at a place and more"][item.1 as usize];
        format!("{}{place}", name_of(item.0))
    },
};

/// A card or a refusal, and whether its room is one byte short or less, exact, or more.
pub const ROOMS: Group = Group {
    name: "rooms for the print",
    wanted: || (0..2).flat_map(|print| (0..4).map(move |room| (print, room))).collect(),
    label: |item| {
        let room = ["short", "a byte short", "exact", "more"][item.1 as usize];
        format!("{} {room}", ["card", "refusal"][item.0 as usize])
    },
};

/// TEXT at a line, or at none for its size, over the number given without what is wrong there.
pub const PAIRS: Group = Group {
    name: "competing refusals of texts",
    wanted: || {
        let under = [COUNT, FIELD, TREE, RANGE, OWN_ZONE, BACKUP, CURVE, DELAY];
        let (line, size) = (under.map(|number| (1, number)), under.map(|number| (0, number)));
        [&line[..], &size, &[(0, TEXT)]].concat()
    },
    label: |item| format!("{} over {}", ["size", "line"][item.0 as usize], name_of(item.1)),
};

pub const GROUPS: [Group; 3] = [NUMBERS, ROOMS, PAIRS];

pub const KINDS: [Kind; 9] = [
    Kind { name: "texts at the bounds", cases: 1, case: bounded_texts::compare },
    Kind {
        name: "every byte in every column",
        cases: FIELDS as u64 + 1,
        case: bounded_texts::every_byte,
    },
    Kind { name: "well-formed texts", cases: 30_000, case: well_formed },
    Kind { name: "texts damaged byte by byte", cases: 24, case: byte_by_byte },
    Kind { name: "damaged texts", cases: 60_000, case: damaged_texts },
    Kind { name: "texts of damaged lists", cases: 20_000, case: of_damaged_lists },
    Kind { name: "any bytes", cases: 20_000, case: any_bytes },
    Kind { name: "texts with other rooms", cases: 2_000, case: rooms },
    Kind { name: "texts at fault twice", cases: 2_000, case: twice },
];

/// Both programs on the same text: number, place, field and how many bytes, and
/// these byte for byte; a guard on each side of the lent room, the text and the
/// bytes past the print must stand.
pub fn same(text: &[u8], room: usize, seen: &mut Seen) -> Result<Answer, String> {
    const GUARD: usize = 16;
    let end = GUARD + room;
    let mark = (text.len() % 256) as u8;
    let before: Vec<u8> = (0..end + GUARD).map(|at| mark.wrapping_add(at as u8)).collect();
    let (lent, mut guarded) = (text.to_vec(), before.clone());
    let (given, written) = boundary::card(&lent, &mut guarded[GUARD..end]);
    let print = printed(text);
    note_room(&print, room, seen);
    let Printed { answer, bytes } = print.within(room);
    let wanted = [&before[..GUARD], &bytes, &before[GUARD + bytes.len()..]].concat();
    let is_print = written == bytes.len() as u64 && guarded == wanted;
    if !agree(given, answer) || !is_print || lent != text {
        let (bytes, text) = (String::from_utf8_lossy(&bytes), String::from_utf8_lossy(text));
        return Err(format!(
            "{given:?}, not {answer:?} and {bytes:?}, or the buffers differ: room {room}, {text:?}"
        ));
    }
    seen.compared += 1;
    seen.note(&NUMBERS, (answer.number, answer.place.min(1) + answer.field.min(1)));
    seen.accepted += u64::from(answer == Answer::DONE);
    Ok(answer)
}

fn note_room(print: &Printed, room: usize, seen: &mut Seen) {
    let kind = match room.cmp(&print.bytes.len()) {
        Ordering::Less if room + 1 == print.bytes.len() => 1,
        Ordering::Less => 0,
        Ordering::Equal => 2,
        Ordering::Greater => 3,
    };
    seen.note(&ROOMS, (u64::from(print.answer != Answer::DONE), kind));
}

/// With room for every print, at times with more.
pub fn ample(text: &[u8], seed: u64, seen: &mut Seen) -> Found {
    same(text, CARD_ROOM + (seed % 3 * 50) as usize, seen).map(|_| ())
}

/// A well-formed text of a few rows, or none.
fn short_text(most: u64, seed: u64) -> Vec<u8> {
    let mut rng = Rng::new(seed);
    let (shape, rows) = (rng.pick(&SHAPES), rng.below(most + 1));
    let list = if rows == 0 { Vec::new() } else { list_shaped(shape, rows, rng.any()) };
    text(&list, rng.any())
}

fn well_formed(_: u64, seed: u64, seen: &mut Seen) -> Found {
    ample(&text(&list(seed), seed), seed, seen)
}

fn byte_by_byte(_: u64, seed: u64, seen: &mut Seen) -> Found {
    let text = short_text(3, seed);
    (0..text.len())
        .flat_map(|at| byte_damages(&text, at))
        .try_for_each(|text| ample(&text, seed, seen))
}

fn damaged_texts(_: u64, seed: u64, seen: &mut Seen) -> Found {
    ample(&damaged_text(&short_text(12, seed), seed), seed, seen)
}

/// Fields out of bounds, wrong trees, and numbers of more digits than a text may have.
fn of_damaged_lists(_: u64, seed: u64, seen: &mut Seen) -> Found {
    ample(&text(&damaged(seed).list, seed), seed, seen)
}

/// Bytes that have nothing to do with a list, at times after a header.
fn any_bytes(_: u64, seed: u64, seen: &mut Seen) -> Found {
    let mut rng = Rng::new(seed);
    let telling = rng.chance(50);
    let mut text = if rng.chance(50) { text(&[], seed) } else { Vec::new() };
    for _ in 0..rng.below(200) {
        let any = rng.any() as u8;
        text.push(if telling { rng.pick(b"\",\r\n01aF~") } else { any });
    }
    ample(&text, seed, seen)
}

/// A refused text, the same with a bad last line, and that with too many bytes.
fn twice(_: u64, seed: u64, seen: &mut Seen) -> Found {
    let list = if seed.is_multiple_of(2) { damaged(seed).list } else { list(seed) };
    let text = text(&list, seed);
    let bad_line = [&text[..], b"x"].concat();
    let mut too_long = bad_line.clone();
    too_long.resize(bad_line.len().max(MOST_BYTES + 1), b'x');
    let [one, two, three] = [text, bad_line, too_long].map(|text| same(&text, CARD_ROOM, seen));
    let [first, line, size] = [one?, two?, three?];
    for (over, under) in [(line, first), (size, first), (size, line)] {
        if under != Answer::DONE && over != under {
            seen.note(&PAIRS, (over.place.min(1), under.number));
        }
    }
    Ok(())
}

/// None, about what is printed, about what suffices for any refusal and any card, and any.
fn rooms(_: u64, seed: u64, seen: &mut Seen) -> Found {
    let text = short_text(12, seed);
    let (print, any) = (card(&text).len(), Rng::new(seed).below(2 * CARD_ROOM as u64) as usize);
    let about = [print, 85, CARD_ROOM].map(|room| [room - 1, room, room + 1]);
    let others = [0, 1, text.len(), any];
    let mut rooms = others.into_iter().chain(about.into_iter().flatten());
    rooms.try_for_each(|room| same(&text, room, seen).map(|_| ()))
}
