//! How far replacements that are done went [02 §8]: where climbs ended in series,
//! and on foreign cards what stands in the rows past a stop.

use crate::answers::name_of;
use crate::lists::{row_count, ACCEPTED_ROWS};
use crate::run::{Group, Item, Seen};
use second::answer::*;
use second::row::{path_of, Row, CARD_NUMBERS};
use second::whole::{fed_rows, settle, Settings};

const ENDS: [&str; 5] = [
    "in the only row",
    "at the feeding row, below the last",
    "further up, below the last",
    "at the last row, which stays",
    "at the last row, which changes",
];

/// Where the climb ended, by the place in ENDS; 1 where the replaced row's own
/// card row stayed.
const ENDS_IN_SERIES: Group = Group {
    name: "ends of climbs in series",
    wanted: || (0..ENDS.len() as u64).flat_map(|end| [(end, 0), (end, 1)]).collect(),
    label: |item| {
        let own = ["", " (the replaced one stays)"][item.1 as usize];
        format!("{}{own}:", ENDS[item.0 as usize])
    },
};

const ENDS_ON_FOREIGN: Group = Group { name: "ends of climbs on foreign cards", ..ENDS_IN_SERIES };

/// How many rows were worked out.
const ROWS_IN_SERIES: Group = Group { name: "rows worked out in series", ..ACCEPTED_ROWS };

pub const COLUMNS: [&str; CARD_NUMBERS] = ["pickup", "delay", "cutoff", "law", "multiplier"];

/// Of a feeding row that the climb went past, the numbers that stayed: for each
/// column its power of two. All of them would have stopped it.
const KEPT_ON_FOREIGN: Group = Group {
    name: "numbers that stay in a row that doesn't stop the climb, on foreign cards",
    wanted: || (0..ALL_KEPT).map(|kept| (kept, 0)).collect(),
    label: |item| {
        let is_kept = |at: &usize| item.0 >> at & 1 == 1;
        let kept: Vec<&str> = (0..CARD_NUMBERS).filter(is_kept).map(|at| COLUMNS[at]).collect();
        if kept.is_empty() {
            "none".to_string()
        } else {
            kept.join(" and ")
        }
    },
};

/// Cutoff and law; delay; multiplier.
const ALWAYS_KEPT: u64 = 1 << 2 | 1 << 3;
const DELAY_KEPT: u64 = 1 << 1;
const MULTIPLIER_KEPT: u64 = 1 << 4;
const ALL_KEPT: u64 = (1 << CARD_NUMBERS) - 1;

/// On the list's own card the cutoff and the law of a feeding row always stay, and by
/// its law the delay or the multiplier, which is 0 [02 §3].
const KEPT_IN_SERIES: Group = Group {
    name: "numbers that stay in a row that doesn't stop the climb, in series",
    wanted: || {
        let can_be = |kept: &u64| {
            kept & ALWAYS_KEPT == ALWAYS_KEPT && kept & (DELAY_KEPT | MULTIPLIER_KEPT) != 0
        };
        (0..ALL_KEPT).filter(can_be).map(|kept| (kept, 0)).collect()
    },
    ..KEPT_ON_FOREIGN
};

/// What working out the rows past a stop would come to: DONE, with 1 where that
/// would change them, or a refusal.
const PAST_THE_STOP: Group = Group {
    name: "rows past a stop on foreign cards, had they been worked out",
    wanted: || {
        let refusals = [RANGE, OWN_ZONE, BACKUP, CURVE, DELAY].map(|number| (number, 0));
        [&[(DONE, 0), (DONE, 1)][..], &refusals].concat()
    },
    label: |item| match item {
        (DONE, 0) => "the same".to_string(),
        (DONE, _) => "others".to_string(),
        (number, _) => name_of(number).to_string(),
    },
};

pub const GROUPS: [Group; 6] = [
    ENDS_IN_SERIES,
    ROWS_IN_SERIES,
    KEPT_IN_SERIES,
    ENDS_ON_FOREIGN,
    KEPT_ON_FOREIGN,
    PAST_THE_STOP,
];

/// A replacement that is done, by the list after it.
pub struct Climb<'a> {
    list: &'a [u64],
    path: Vec<u64>,
    /// How many rows of the path were worked out.
    rows: usize,
    /// The card before and after.
    cards: [&'a [u64]; 2],
}

impl<'a> Climb<'a> {
    pub fn new(list: &'a [u64], place: u64, rows: u64, cards: [&'a [u64]; 2]) -> Climb<'a> {
        Climb { list, path: path_of(list, place), rows: rows as usize, cards }
    }

    pub fn note_in_series(&self, seen: &mut Seen) {
        self.note(&ENDS_IN_SERIES, &KEPT_IN_SERIES, seen);
        seen.note(&ROWS_IN_SERIES, row_count(self.rows as u64));
    }

    pub fn note_on_foreign(&self, seen: &mut Seen) {
        self.note(&ENDS_ON_FOREIGN, &KEPT_ON_FOREIGN, seen);
        if self.rows < self.path.len() {
            seen.note(&PAST_THE_STOP, self.past_the_stop());
        }
    }

    fn note(&self, ends: &Group, kept: &Group, seen: &mut Seen) {
        let own = u64::from(self.kept(0) == ALL_KEPT);
        seen.note(ends, (self.end(), own));
        for at in 1..self.rows {
            if self.kept(at) != ALL_KEPT {
                seen.note(kept, (self.kept(at), 0));
            }
        }
    }

    /// By the place in ENDS.
    fn end(&self) -> u64 {
        let (rows, last) = (self.rows, self.path.len());
        match (rows, self.kept(rows - 1) == ALL_KEPT) {
            _ if last == 1 => 0,
            (2, _) if rows < last => 1,
            _ if rows < last => 2,
            (_, true) => 3,
            (_, false) => 4,
        }
    }

    /// Which numbers of a row of the path are the same on both cards.
    fn kept(&self, at: usize) -> u64 {
        let row = (self.path[at] as usize - 1) * CARD_NUMBERS;
        let is_kept = |column: usize| self.cards[0][row + column] == self.cards[1][row + column];
        (0..CARD_NUMBERS).map(|column| u64::from(is_kept(column)) << column).sum()
    }

    fn past_the_stop(&self) -> Item {
        let rows: Vec<Row> = self.list.as_chunks().0.iter().map(Row::read).collect();
        let lent: Vec<Settings> = self.cards[1].as_chunks().0.iter().map(Settings::read).collect();
        let mut settings = lent.clone();
        for &row in &self.path[self.rows..] {
            let at = row as usize - 1;
            match settle(&rows[at], &fed_rows(&rows, &settings, row)) {
                Ok(settled) => settings[at] = settled,
                Err(refusal) => return (refusal.number, 0),
            }
        }
        (DONE, u64::from(settings != lent))
    }
}
