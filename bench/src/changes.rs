//! A replacement at the first, a middle and the last row of 256, one that works out
//! its whole path and one that stops at the feeding row [02 §8], its tests of list
//! and card apart, beside the Rust program that starts afresh. On lists of curves
//! [02 §3] the one that stops.

use crate::{carded, median, Relays};
use compare::boundary;
use second::answer::{Answer, CARD};
use second::conditions::step_between;
use second::fast;
use second::generate::{Keyed, Laws, Shape, KEYED};
use second::replace::{replace, Replaced};
use second::row::{path_of, Row, FIELDS, MOST_DELAY};
use second::whole::Settings;
use std::hint::black_box;
use std::time::Instant;

const ROWS: u64 = 256;
/// An even number, so that a round of rows by turns ends as it began.
const CALLS: usize = 200;
const ROUNDS: usize = 101;
/// Above every multiplier that a card may hold: CARD in the last row, after the
/// whole list and the rows before it are tested and before any is worked out.
const NO_MULTIPLIER: u64 = 1_501;

/// A list that holds the second of two rows at its place, with its card: the rows
/// are put there by turns, and each time so many rows are worked out.
struct Turns {
    list: Vec<u64>,
    card: Vec<u64>,
    rows: [Row; 2],
    worked_out: u64,
}

pub fn replacements() {
    println!(
        "keyed, laws, shape         row  rows worked out  tests ns  path ns  together ns  Rust afresh ns  \
         together/Rust  path/Rust"
    );
    let shapes = [Shape::Chain, Shape::Tree];
    for (keyed, shape) in KEYED.into_iter().flat_map(|keyed| shapes.map(|shape| (keyed, shape))) {
        let relays = Relays { keyed, laws: Laws::Definite };
        let list = with_room(first_accepted(relays, shape));
        for place in [1, ROWS / 2, ROWS] {
            let (far, near) = (whole_path(&list, place), in_place(&list, place));
            assert_eq!(near.worked_out, far.worked_out.min(2));
            print(relays, shape, &far);
            if near.worked_out < far.worked_out {
                print(relays, shape, &near);
            }
        }
    }
    for shape in shapes {
        let relays = Relays { keyed: Keyed::Primary, laws: Laws::Curves };
        let list = first_accepted(relays, shape);
        for place in [1, ROWS / 2, ROWS] {
            print(relays, shape, &in_place(&list, place));
        }
    }
}

/// In place of itself a row changes nothing, and its feeding row stops the climb.
fn in_place(list: &[u64], place: u64) -> Turns {
    Turns::new(list, [row_at(list, place); 2])
}

fn print(relays: Relays, shape: Shape, turns: &Turns) {
    let (place, rows) = (turns.rows[0].row, turns.worked_out);
    let lists = relays.name(shape);
    let [tests, whole, rust] = measure(turns);
    let path = whole - tests;
    println!(
        "{lists:<25} {place:>4} {rows:>16} {tests:>9.0} {path:>8.0} {whole:>12.0} {rust:>15.0} \
         {:>14.2} {:>10.2}",
        whole / rust,
        path / rust
    );
}

fn first_accepted(relays: Relays, shape: Shape) -> Vec<u64> {
    relays.accepted(shape, ROWS).next().expect("there is always one more")
}

/// The list with room for longer delays.
fn with_room(mut list: Vec<u64>) -> Vec<u64> {
    for row in list.as_chunks_mut::<FIELDS>().0 {
        *row = Row { ceiling: MOST_DELAY, ..Row::read(row) }.numbers();
    }
    list
}

fn row_at(list: &[u64], place: u64) -> Row {
    Row::read(&list.as_chunks().0[place as usize - 1])
}

/// Floors 1 apart, long enough to give the delay of every row on the path.
fn whole_path(list: &[u64], place: u64) -> Turns {
    let card = carded(list).expect("an accepted list");
    let (row, path) = (row_at(list, place), path_of(list, place));
    let (mut steps, mut floor) = (0, 0);
    for (at, &feeding) in path.iter().enumerate() {
        if at > 0 {
            steps += step_between(&row_at(list, feeding), &row_at(list, path[at - 1]));
        }
        let delay = Settings::read(&card.as_chunks().0[feeding as usize - 1]).delay;
        floor = floor.max(delay.saturating_sub(steps));
    }
    let turns = Turns::new(list, [1, 2].map(|more| Row { floor: floor + more, ..row }));
    assert_eq!(turns.worked_out, path.len() as u64);
    turns
}

impl Turns {
    /// The second program says how many rows are worked out, and that it is the
    /// same each time.
    fn new(list: &[u64], rows: [Row; 2]) -> Turns {
        let mut list = list.to_vec();
        list.as_chunks_mut().0[rows[1].row as usize - 1] = rows[1].numbers();
        let card = carded(&list).expect("an accepted list");
        let (mut list2, mut card2) = (list.clone(), card.clone());
        let mut put = |row: Row| replace(&mut list2, &mut card2, row.row, &row.numbers());
        let [first, second] = rows.map(&mut put);
        assert_eq!((first, first.answer), (second, Answer::DONE));
        assert_eq!((&list2, &card2), (&list, &card));
        Turns { list, card, rows, worked_out: first.rows }
    }
}

/// Medians of the tests alone, of the whole replacement and of Rust afresh.
fn measure(turns: &Turns) -> [f64; 3] {
    let (mut list, mut card) = (turns.list.clone(), turns.card.clone());
    let (mut refused, mut out) = (card.clone(), card.clone());
    *refused.last_mut().expect("a card row") = NO_MULTIPLIER;
    let place = turns.rows[0].row;
    let rows = turns.rows.map(|row| row.numbers());
    let tested = Replaced::refused(Answer::at(CARD, ROWS));
    let done = Replaced::done(turns.worked_out);
    let mut times = [vec![], vec![], vec![]];
    for _ in 0..ROUNDS {
        let test = |call: usize| boundary::replace(&mut list, &mut refused, place, &rows[call % 2]);
        times[0].push(round(test, tested));
        let put = |call: usize| boundary::replace(&mut list, &mut card, place, &rows[call % 2]);
        times[1].push(round(put, done));
        times[2].push(round(|_| fast::whole(&list, &mut out), Answer::DONE));
    }
    times.map(median)
}

fn round<T: PartialEq + std::fmt::Debug>(mut call: impl FnMut(usize) -> T, expected: T) -> f64 {
    let start = Instant::now();
    for count in 0..CALLS {
        assert_eq!(black_box(call(count)), expected);
    }
    start.elapsed().as_nanos() as f64 / CALLS as f64
}
