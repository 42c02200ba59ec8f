//! `compare [--seed N] [--all-singles | --long]`: the proved library against
//! the second program. `compare singles [--all]`: singles alone, a part or all.
//! Where no seed is given it is the day's, and it is printed.

use compare::run::{Score, Seen};
use compare::singles::{self, Part};
use compare::{
    alone, answers, boundary, causes, changes, climbs, competing, differentials, edges, keyed,
    laws, lists, multiples, ratios, resting, studies, texts, times, verdicts,
};
use std::process::ExitCode;
use std::time::{Instant, SystemTime, UNIX_EPOCH};

/// Fewer texts compared fail the run.
const LEAST_TEXTS: u64 = 200_000;

/// How much a run compares.
struct Length {
    /// How often each kind's cases are taken, every time with other seeds.
    passes: u64,
    all_singles: bool,
}

const GATE: Length = Length { passes: 1, all_singles: false };
const GATE_ALL_SINGLES: Length = Length { passes: 1, all_singles: true };
const LONG: Length = Length { passes: 10, all_singles: true };

const USAGE: &str = "compare [--seed N] [--all-singles | --long] | compare singles [--all]";

fn main() -> ExitCode {
    let words: Vec<String> = std::env::args().skip(1).collect();
    let words: Vec<&str> = words.iter().map(String::as_str).collect();
    let command = match words[..] {
        ["singles"] => Some(singles_alone(Part::of_seed(today()))),
        ["singles", "--all"] => Some(singles_alone(singles::ALL)),
        ["--seed", seed, ref length @ ..] => {
            seed.parse().ok().and_then(|seed| Some(compare_all(seed, named(length)?)))
        }
        ref length => named(length).map(|length| compare_all(today(), length)),
    };
    command.unwrap_or_else(|| {
        eprintln!("{USAGE}");
        ExitCode::from(2)
    })
}

fn named(length: &[&str]) -> Option<Length> {
    match length {
        [] => Some(GATE),
        ["--all-singles"] => Some(GATE_ALL_SINGLES),
        ["--long"] => Some(LONG),
        _ => None,
    }
}

/// The days since 1970-01-01, by UTC.
fn today() -> u64 {
    let since = SystemTime::now().duration_since(UNIX_EPOCH).expect("a clock past 1970");
    since.as_secs() / (24 * 60 * 60)
}

fn compare_all(seed: u64, Length { passes, all_singles }: Length) -> ExitCode {
    println!("seed {seed}");
    let mut score = Score::default();
    let [library, header] = boundary::versions();
    score.count(library == header, &format!("version {library}, the header's {header}"));
    answers::check_header(&mut score);
    compare_lists(&mut score, seed, passes);
    compare_replacements(&mut score, seed, passes);
    let (mut study, mut differential) = (Seen::default(), Seen::default());
    score.run(&studies::KINDS, seed, passes, &mut study);
    score.check_all(&studies::GROUPS, &study);
    score.run(&differentials::KINDS, seed, passes, &mut differential);
    score.check_all(&differentials::GROUPS, &differential);
    score.check_all(&verdicts::GROUPS, &differential);
    compare_texts(&mut score, seed, passes);
    timed("times of both curves at every M, ms", &mut score, || times::compare(seed));
    compare_singles(if all_singles { singles::ALL } else { Part::of_seed(seed) }, &mut score);
    println!("compare: {} passed, {} failed", score.passed, score.failed);
    ExitCode::from(u8::from(score.failed > 0))
}

fn compare_lists(score: &mut Score, seed: u64, passes: u64) {
    let mut whole = Seen::default();
    score.run(&lists::KINDS, seed, passes, &mut whole);
    let more = [edges::LISTS, ratios::LISTS, multiples::LISTS, causes::LISTS, competing::LISTS];
    score.run(&more, seed, passes, &mut whole);
    let share = 100 * whole.accepted / whole.compared.max(1);
    let line = format!("{} lists, {} accepted, {share} percent", whole.compared, whole.accepted);
    score.count((30..=70).contains(&share), &line);
    score.check_all(&lists::GROUPS, &whole);
    score.check_all(&keyed::OF_LISTS, &whole);
    score.check_all(&laws::OF_LISTS, &whole);
    score.check_all(&edges::OF_LISTS, &whole);
    score.check_all(&ratios::OF_LISTS, &whole);
    score.check_all(&multiples::OF_LISTS, &whole);
    score.check(&causes::IN_LISTS, &whole);
    score.check_all(&competing::OF_LISTS, &whole);
}

fn compare_replacements(score: &mut Score, seed: u64, passes: u64) {
    let mut change = Seen::default();
    score.run(&changes::KINDS, seed, passes, &mut change);
    score.run(&ratios::REPLACEMENTS, seed, passes, &mut change);
    score.run(&multiples::REPLACEMENTS, seed, passes, &mut change);
    let more =
        [resting::REPLACEMENTS, edges::REPLACEMENTS, causes::REPLACEMENTS, competing::REPLACEMENTS];
    score.run(&more, seed, passes, &mut change);
    score.check_all(&changes::GROUPS, &change);
    changes::check_refused(score, &change);
    score.check_all(&climbs::GROUPS, &change);
    score.check_all(&alone::GROUPS, &change);
    score.check_all(&keyed::OF_REPLACEMENTS, &change);
    score.check_all(&edges::OF_REPLACEMENTS, &change);
    score.check_all(&ratios::OF_REPLACEMENTS, &change);
    score.check_all(&multiples::OF_REPLACEMENTS, &change);
    score.check(&resting::ORDERS, &change);
    score.check(&causes::IN_REPLACEMENTS, &change);
    score.check_all(&competing::OF_REPLACEMENTS, &change);
}

fn compare_texts(score: &mut Score, seed: u64, passes: u64) {
    let mut text = Seen::default();
    score.run(&texts::KINDS, seed, passes, &mut text);
    score.run(&causes::TEXTS, seed, passes, &mut text);
    score.run(&[ratios::TEXTS], seed, passes, &mut text);
    let line = format!("{} texts, {} accepted", text.compared, text.accepted);
    score.count(text.compared >= LEAST_TEXTS, &line);
    score.check_all(&texts::GROUPS, &text);
    score.check(&causes::IN_TEXTS, &text);
    score.check_all(&ratios::OF_TEXTS, &text);
}

fn compare_singles(part: Part, score: &mut Score) {
    let name = format!("singles, one in {}, readings", part.step);
    timed(&name, score, || singles::compare(part));
}

/// One test: how many were compared, in how many seconds.
fn timed(name: &str, score: &mut Score, compare: impl FnOnce() -> Result<u64, String>) {
    let start = Instant::now();
    let found = compare();
    let seconds = start.elapsed().as_secs_f64();
    match found {
        Ok(compared) => score.count(true, &format!("{name}: {compared}, {seconds:.1} s")),
        Err(difference) => score.count(false, &format!("{name}: {difference}")),
    }
}

fn singles_alone(part: Part) -> ExitCode {
    let mut score = Score::default();
    compare_singles(part, &mut score);
    println!("compare: {} passed, {} failed", score.passed, score.failed);
    ExitCode::from(u8::from(score.failed > 0))
}
