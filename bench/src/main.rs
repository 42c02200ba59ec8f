//! The proved library beside the linear program in Rust: the same accepted
//! lists and buffers, rounds of each in turn, the median round. Definite lists keyed
//! in primary mA are those of earlier versions, with four fields more to a row [02 §1,
//! §3]; lists of curves alone and mixed ones stand beside them.

mod changes;
mod differentials;

use compare::boundary;
use second::answer::Answer;
use second::curve::DEFINITE;
use second::fast;
use second::generate::{lent_card, list_with, Keyed, Laws, Shape, KEYED};
use second::row::{field, CARD_NUMBERS, FIELDS, MOST_ROWS};
use std::hint::black_box;
use std::time::Instant;

const SIZES: [u64; 3] = [64, 128, 256];
const SHAPES: [Shape; 3] = [Shape::Chain, Shape::Star, Shape::Tree];
/// Rows of all lists of one size together, the same for each size, so that
/// cache and branch prediction have the same to hold.
const ROWS: u64 = 2_048;
/// How often a round goes through the lists: 200 calls at 256 rows.
const TURNS: usize = 25;
const ROUNDS: usize = 101;

const MOST_RATIO: f64 = 1.2;
const MOST_GROWTH: f64 = 4.5;

type Whole = fn(&[u64], &mut [u64]) -> Answer;

/// How the rows of lists are keyed, and their laws.
#[derive(Clone, Copy)]
pub struct Relays {
    pub keyed: Keyed,
    pub laws: Laws,
}

/// Definite lists however they are keyed, then lists with curves.
const RELAYS: [Relays; 6] = [
    Relays { keyed: KEYED[0], laws: Laws::Definite },
    Relays { keyed: KEYED[1], laws: Laws::Definite },
    Relays { keyed: KEYED[2], laws: Laws::Definite },
    Relays { keyed: Keyed::Primary, laws: Laws::Curves },
    Relays { keyed: Keyed::Primary, laws: Laws::Mixed },
    Relays { keyed: Keyed::Mixed, laws: Laws::Mixed },
];

impl Relays {
    /// An accepted list, by the seeds in their order; of curves alone where it is asked.
    pub fn accepted(self, shape: Shape, rows: u64) -> impl Iterator<Item = Vec<u64>> {
        let list = move |seed| list_with(shape, rows, self.keyed, self.laws, seed);
        (0..).map(list).filter(move |list| carded(list).is_some() && self.laws_of(list))
    }

    fn laws_of(self, list: &[u64]) -> bool {
        let is_curve = |row: &[u64; FIELDS]| row[field::LAW - 1] != DEFINITE;
        self.laws != Laws::Curves || list.as_chunks().0.iter().all(is_curve)
    }

    pub fn name(self, shape: Shape) -> String {
        format!("{:?} {:?} {shape:?}", self.keyed, self.laws)
    }
}

/// The card of an accepted list.
pub fn carded(list: &[u64]) -> Option<Vec<u64>> {
    let mut card = vec![0; CARD_NUMBERS * list.len() / FIELDS];
    (fast::whole(list, &mut card) == Answer::DONE).then_some(card)
}

/// The lists of one size, and nanoseconds a call, round by round.
struct Size {
    lists: Vec<Vec<u64>>,
    rattle: Vec<f64>,
    rust: Vec<f64>,
}

fn main() {
    whole_calculations();
    changes::replacements();
    differentials::pairs();
}

fn whole_calculations() {
    println!("keyed, laws, shape        rows   Rattle ns     Rust ns  Rattle/Rust");
    for (relays, shape) in RELAYS.into_iter().flat_map(|of| SHAPES.map(|shape| (of, shape))) {
        let (lists, medians) = (relays.name(shape), measure(shape, relays));
        for (rows, (rattle, rust)) in SIZES.iter().zip(&medians) {
            let ratio = rattle / rust;
            println!("{lists:<25} {rows:>4} {rattle:>11.0} {rust:>11.0} {ratio:>12.2}");
        }
        let [least, _, most] = medians;
        println!(
            "{lists}: Rattle/Rust at 256 rows {:.2} (target at most {MOST_RATIO}), \
             growth from 64 to 256 rows {:.2} (target at most {MOST_GROWTH}; Rust {:.2})",
            most.0 / most.1,
            most.0 / least.0,
            most.1 / least.1
        );
    }
}

/// Median times of Rattle and Rust at each size; sizes and programs take turns.
fn measure(shape: Shape, relays: Relays) -> [(f64, f64); 3] {
    let size = |rows| {
        let lists = relays.accepted(shape, rows).take((ROWS / rows) as usize).collect();
        Size { lists, rattle: vec![], rust: vec![] }
    };
    let mut sizes = SIZES.map(size);
    let mut card = lent_card(CARD_NUMBERS * MOST_ROWS, 1);
    for _ in 0..ROUNDS {
        for size in &mut sizes {
            size.rattle.push(round(boundary::whole, &size.lists, &mut card));
            size.rust.push(round(fast::whole, &size.lists, &mut card));
        }
    }
    sizes.map(|size| (median(size.rattle), median(size.rust)))
}

fn round(whole: Whole, lists: &[Vec<u64>], card: &mut [u64]) -> f64 {
    let start = Instant::now();
    for _ in 0..TURNS {
        for list in lists {
            black_box(whole(black_box(list), black_box(card)));
        }
    }
    start.elapsed().as_nanos() as f64 / (TURNS * lists.len()) as f64
}

pub fn median(mut times: Vec<f64>) -> f64 {
    times.sort_by(f64::total_cmp);
    times[times.len() / 2]
}
