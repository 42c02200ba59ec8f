//! Safe functions over the C boundary, as include/surfpocket.h declares it.

use second::answer::Answer;
use second::differential::{DifferentialAnswer, Inputs};
use second::replace::Replaced;
use second::study::{Current, StudyAnswer};
use std::ptr;

#[repr(C)]
struct SurfpocketAnswer {
    number: u64,
    place: u64,
    field: u64,
}

#[repr(C)]
struct SurfpocketReplacement {
    number: u64,
    place: u64,
    field: u64,
    rows: u64,
}

#[repr(C)]
struct SurfpocketStudy {
    number: u64,
    place: u64,
    greatest: u64,
    least: u64,
    greatest_lower: u64,
    greatest_upper: u64,
    least_lower: u64,
    least_upper: u64,
}

#[repr(C)]
struct SurfpocketDifferential {
    number: u64,
    place: u64,
    start: u64,
    bend: u64,
    slope: u64,
    blocking: u64,
    cutoff: u64,
    verdict: u64,
}

#[repr(C)]
struct SurfpocketPrinted {
    number: u64,
    place: u64,
    field: u64,
    bytes: u64,
}

extern "C" {
    fn surfpocket_version() -> u64;

    fn surfpocket_whole(
        list: *const u64,
        list_length: usize,
        card: *mut u64,
        card_length: usize,
    ) -> SurfpocketAnswer;

    fn surfpocket_replace(
        list: *mut u64,
        list_length: usize,
        card: *mut u64,
        card_length: usize,
        place: u64,
        row: *const u64,
        row_length: usize,
    ) -> SurfpocketReplacement;

    fn surfpocket_study(
        greatest_unit: u64,
        greatest: f32,
        greatest_rated: u64,
        least_unit: u64,
        least: f32,
        least_rated: u64,
    ) -> SurfpocketStudy;

    fn surfpocket_differential(
        start: u64,
        blocking: u64,
        cutoff: u64,
        through: u64,
        first: u64,
        second: u64,
        differential: u64,
        restraint: u64,
    ) -> SurfpocketDifferential;

    fn surfpocket_time(law: u64, multiple: u64, multiplier: u64) -> u64;

    fn surfpocket_card(
        text: *const u8,
        text_length: usize,
        out: *mut u8,
        out_length: usize,
    ) -> SurfpocketPrinted;
}

/// An empty buffer goes over as NULL, as C callers have it.
fn pointer<T>(lent: &[T]) -> *const T {
    if lent.is_empty() {
        ptr::null()
    } else {
        lent.as_ptr()
    }
}

fn pointer_mut<T>(lent: &mut [T]) -> *mut T {
    if lent.is_empty() {
        ptr::null_mut()
    } else {
        lent.as_mut_ptr()
    }
}

pub fn whole(list: &[u64], card: &mut [u64]) -> Answer {
    let (l, c) = (pointer(list), pointer_mut(card));
    // SAFETY: both slices are valid for their lengths, and the function is
    // proved to read and write nothing else.
    let given = unsafe { surfpocket_whole(l, list.len(), c, card.len()) };
    Answer { number: given.number, place: given.place, field: given.field }
}

pub fn replace(list: &mut [u64], card: &mut [u64], place: u64, row: &[u64]) -> Replaced {
    let (l, c, r) = (pointer_mut(list), pointer_mut(card), pointer(row));
    // SAFETY: as above; the three slices do not overlap.
    let given = unsafe { surfpocket_replace(l, list.len(), c, card.len(), place, r, row.len()) };
    let answer = Answer { number: given.number, place: given.place, field: given.field };
    Replaced { answer, rows: given.rows }
}

/// A reading as the boundary takes it: the unit by number, the single by bits.
#[derive(Clone, Copy, Debug)]
pub struct Reading {
    pub unit: u64,
    pub bits: u32,
    pub rated: u64,
}

pub const AMPERES: u64 = 1;
pub const KILOAMPERES: u64 = 2;
pub const PER_UNIT: u64 = 3;

/// 500 mA, to stand beside a reading that is tried.
pub const HALF: Reading = Reading { unit: AMPERES, bits: 0x3f00_0000, rated: 0 };

pub fn study(greatest: Reading, least: Reading) -> StudyAnswer {
    // SAFETY: numbers only.
    let given = unsafe {
        surfpocket_study(
            greatest.unit,
            f32::from_bits(greatest.bits),
            greatest.rated,
            least.unit,
            f32::from_bits(least.bits),
            least.rated,
        )
    };
    StudyAnswer {
        number: given.number,
        place: given.place,
        greatest: Current {
            used: given.greatest,
            lower: given.greatest_lower,
            upper: given.greatest_upper,
        },
        least: Current { used: given.least, lower: given.least_lower, upper: given.least_upper },
    }
}

pub fn differential(inputs: &Inputs) -> DifferentialAnswer {
    let [start, blocking, cutoff, through, first, second, differential, restraint] = *inputs;
    // SAFETY: numbers only.
    let given = unsafe {
        surfpocket_differential(
            start,
            blocking,
            cutoff,
            through,
            first,
            second,
            differential,
            restraint,
        )
    };
    DifferentialAnswer {
        number: given.number,
        place: given.place,
        start: given.start,
        bend: given.bend,
        slope: given.slope,
        blocking: given.blocking,
        cutoff: given.cutoff,
        verdict: given.verdict,
    }
}

pub fn time(law: u64, multiple: u64, multiplier: u64) -> u64 {
    // SAFETY: numbers only.
    unsafe { surfpocket_time(law, multiple, multiplier) }
}

/// Room for every card and every refusal: the header, and 256 lines of a name of 24
/// bytes and five numbers of up to 20 digits.
pub const CARD_ROOM: usize = 41 + 256 * (24 + 5 * 21 + 2);

/// What the text gives, and how many bytes of `out` were written.
pub fn card(text: &[u8], out: &mut [u8]) -> (Answer, u64) {
    let (t, o) = (pointer(text), pointer_mut(out));
    // SAFETY: as for `whole`.
    let given = unsafe { surfpocket_card(t, text.len(), o, out.len()) };
    (Answer { number: given.number, place: given.place, field: given.field }, given.bytes)
}

/// The library's version, and the header's.
pub fn versions() -> [u64; 2] {
    let [("", header)] = defined("VERSION")[..] else { panic!("a version") };
    // SAFETY: nothing goes over.
    [unsafe { surfpocket_version() }, header]
}

/// The header's numbers whose names begin so, by the rest of the name.
pub fn defined(start: &str) -> Vec<(&'static str, u64)> {
    const HEADER: &str = include_str!("../../../include/surfpocket.h");
    let number = |line: &'static str| {
        let mut words = line.strip_prefix("#define SURFPOCKET_")?.split_whitespace();
        let rest = words.next()?.strip_prefix(start)?;
        Some((rest, words.next()?.parse().ok()?))
    };
    HEADER.lines().filter_map(number).collect()
}
