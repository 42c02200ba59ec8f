//! Kinds of comparison, each one test, and groups of things that must turn up
//! in them, each one test too.

use second::generate::Rng;
use std::collections::BTreeMap;
use std::sync::atomic::{AtomicU64, Ordering};
use std::thread;
use std::time::Instant;

const THREADS: usize = 2;

/// What turned up: a number, or two of them.
pub type Item = (u64, u64);

/// Items that must all turn up, and what each is called.
pub struct Group {
    pub name: &'static str,
    pub wanted: fn() -> Vec<Item>,
    pub label: fn(Item) -> String,
}

/// What one case finds: nothing, or how the two programs differ.
pub type Found = Result<(), String>;

/// Cases counted from 0, each fixed by its count and seed.
pub struct Kind {
    pub name: &'static str,
    pub cases: u64,
    pub case: fn(count: u64, seed: u64, seen: &mut Seen) -> Found,
}

#[derive(Default)]
pub struct Seen {
    pub compared: u64,
    pub accepted: u64,
    items: BTreeMap<(&'static str, Item), u64>,
}

impl Seen {
    pub fn note(&mut self, group: &Group, item: Item) {
        *self.items.entry((group.name, item)).or_insert(0) += 1;
    }

    pub fn add(&mut self, other: Seen) {
        self.compared += other.compared;
        self.accepted += other.accepted;
        for (key, times) in other.items {
            *self.items.entry(key).or_insert(0) += times;
        }
    }

    pub fn times(&self, group: &Group, item: Item) -> u64 {
        self.items.get(&(group.name, item)).copied().unwrap_or(0)
    }
}

/// Tests passed and failed.
#[derive(Default)]
pub struct Score {
    pub passed: u64,
    pub failed: u64,
}

impl Score {
    /// Counts one test and prints its line.
    pub fn count(&mut self, passed: bool, line: &str) {
        println!("{} {line}", if passed { "ok  " } else { "FAIL" });
        *if passed { &mut self.passed } else { &mut self.failed } += 1;
    }

    pub fn run(&mut self, kinds: &[Kind], seed: u64, times: u64, total: &mut Seen) {
        for kind in kinds {
            let start = Instant::now();
            let (seen, found) = run_kind(kind, kind.cases * times, seed);
            let seconds = start.elapsed().as_secs_f64();
            let (name, compared, accepted) = (kind.name, seen.compared, seen.accepted);
            let line = format!("{name}: {compared} compared, {accepted} accepted, {seconds:.1} s");
            self.count(found.is_ok(), &line);
            if let Err(difference) = found {
                println!("     {difference}");
            }
            total.add(seen);
        }
    }

    pub fn check_all(&mut self, groups: &[Group], seen: &Seen) {
        groups.iter().for_each(|group| self.check(group, seen));
    }

    /// Prints how often each item turned up; one that never did fails.
    pub fn check(&mut self, group: &Group, seen: &Seen) {
        let entry = |&item: &Item| format!("{} {}", (group.label)(item), seen.times(group, item));
        let wanted = (group.wanted)();
        let entries: Vec<String> = wanted.iter().map(entry).collect();
        let all = wanted.iter().all(|&item| seen.times(group, item) > 0);
        self.count(all, &format!("{}: {}", group.name, entries.join(", ")));
    }
}

/// The cases shared out among threads, up to the first difference.
fn run_kind(kind: &Kind, cases: u64, seed: u64) -> (Seen, Found) {
    let name_sum = kind.name.bytes().fold(0, |sum, byte| sum * 31 + u64::from(byte));
    let base = Rng::new(seed ^ name_sum).any();
    let next = AtomicU64::new(0);
    let work = || {
        let mut seen = Seen::default();
        loop {
            let count = next.fetch_add(1, Ordering::Relaxed);
            if count >= cases {
                return (seen, Ok(()));
            }
            let found = (kind.case)(count, Rng::new(base ^ count).any(), &mut seen);
            if let Err(difference) = found {
                next.store(cases, Ordering::Relaxed);
                return (seen, Err(format!("case {count}: {difference}")));
            }
        }
    };
    in_threads(&work).into_iter().fold(
        (Seen::default(), Ok(())),
        |(mut sum, first), (seen, found)| {
            sum.add(seen);
            (sum, first.and(found))
        },
    )
}

/// What each thread gives.
pub fn in_threads<T: Send>(work: &(impl Fn() -> T + Sync)) -> Vec<T> {
    thread::scope(|scope| {
        let threads: Vec<_> = (0..THREADS).map(|_| scope.spawn(work)).collect();
        threads.into_iter().map(|thread| thread.join().expect("a thread that ends")).collect()
    })
}
