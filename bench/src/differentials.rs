//! A differential card with its verdict on one pair, beside the second program,
//! which tries the six slopes in turn.

use crate::median;
use compare::boundary;
use second::differential::{differential, DifferentialAnswer, Inputs};
use second::generate::differentials::in_range;
use std::hint::black_box;
use std::time::Instant;

const PAIRS: u64 = 4_096;
const TURNS: usize = 25;
const ROUNDS: usize = 101;

pub fn pairs() {
    let pairs: Vec<Inputs> = (0..PAIRS).map(in_range).collect();
    let mut times = [vec![], vec![]];
    for _ in 0..ROUNDS {
        times[0].push(round(boundary::differential, &pairs));
        times[1].push(round(differential, &pairs));
    }
    let [rattle, rust] = times.map(median);
    println!(
        "a differential card: Rattle {rattle:.1} ns, Rust {rust:.1} ns, Rattle/Rust {:.2}",
        rattle / rust
    );
}

fn round(card: fn(&Inputs) -> DifferentialAnswer, pairs: &[Inputs]) -> f64 {
    let start = Instant::now();
    for _ in 0..TURNS {
        for inputs in pairs {
            black_box(card(black_box(inputs)));
        }
    }
    start.elapsed().as_nanos() as f64 / (TURNS * pairs.len()) as f64
}
