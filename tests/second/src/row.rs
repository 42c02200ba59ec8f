//! One row of a list, and the tests on the list itself [01 §2, §4, 02 §1, §3]:
//! COUNT, ROOM, FIELD and TREE.

use crate::answer::{Answer, COUNT, ROOM, TREE};
use crate::current::{Fraction, Primary, Ratio, Secondary};
use crate::curve::{C, MOST_MULTIPLIER};

pub const MOST_ROWS: usize = 256;
pub const MOST_CURRENT: u64 = 100_000_000;
pub const MOST_SECONDARY: u64 = 500_000;
pub const MOST_RATED: u64 = 20_000;
pub const RATED_SECONDARIES: [u64; 2] = [1, 5];
pub const MOST_DELAY: u64 = 100_000;

pub const LINE: u64 = 1;
pub const TRANSFORMER: u64 = 2;
pub const MOTOR: u64 = 3;

/// Column name and own range.
#[derive(Clone, Copy)]
pub struct Bound {
    pub column: &'static str,
    pub least: u64,
    pub greatest: u64,
}

impl Bound {
    pub fn holds(&self, value: u64) -> bool {
        (self.least..=self.greatest).contains(&value)
    }
}

/// The table of section 2, the rated currents [02 §1], the law and the near end's
/// greatest current [02 §3] make the row, its numbers, their bounds and the field
/// numbers.
macro_rules! fields {
    ($($name:ident $number:ident $column:literal $least:literal $greatest:expr;)*) => {
        #[derive(Clone, Copy, Debug, PartialEq, Eq)]
        pub struct Row {
            $(pub $name: u64,)*
        }

        pub const FIELDS: usize = [$($column),*].len();

        /// The fields by number, from 1.
        pub mod field {
            #[allow(non_camel_case_types, clippy::upper_case_acronyms)]
            enum At { $($number),* }

            $(pub const $number: usize = At::$number as usize + 1;)*
        }

        pub const BOUNDS: [Bound; FIELDS] = [
            $(Bound { column: $column, least: $least, greatest: $greatest },)*
        ];

        impl Row {
            pub fn read(numbers: &[u64; FIELDS]) -> Row {
                let [$($name),*] = *numbers;
                Row { $($name),* }
            }

            pub fn numbers(&self) -> [u64; FIELDS] {
                [$(self.$name),*]
            }
        }
    };
}

fields! {
    row ROW "row" 1 MOST_ROWS as u64;
    feeds_from FEEDS_FROM "feeds_from" 0 MOST_ROWS as u64;
    kind KIND "kind" 1 MOTOR;
    volts VOLTS "volts" 100 500_000;
    work WORK "work" 1 MOST_CURRENT;
    selfstart SELFSTART "selfstart" 1_000 10_000;
    return_factor RETURN "return" 800 1_000;
    far FAR "far" 1 MOST_CURRENT;
    clear CLEAR "clear" 1 MOST_CURRENT;
    near NEAR "near" 1 MOST_CURRENT;
    factor FACTOR "factor" 1_000 2_000;
    low LOW "low" 1 MOST_CURRENT;
    high HIGH "high" 1 MOST_CURRENT;
    step STEP "step" 1 MOST_CURRENT;
    device DEVICE "device" 1 3;
    floor FLOOR "floor" 0 MOST_DELAY;
    ceiling CEILING "ceiling" 0 MOST_DELAY;
    backed BACKED "backed" 0 1;
    rated_primary RATED_PRIMARY "rated_primary" 0 MOST_RATED;
    rated_secondary RATED_SECONDARY "rated_secondary" 0 5;
    law LAW "law" 0 C;
    near_greatest NEAR_GREATEST "near_greatest" 1 MOST_CURRENT;
}

/// The bounds of the fields where there is a rated primary: low, high and step are
/// secondary then. In field 20 not all between its bounds is allowed [02 §1].
pub const SECONDARY_BOUNDS: [Bound; FIELDS] = {
    let mut bounds = BOUNDS;
    bounds[field::LOW - 1].greatest = MOST_SECONDARY;
    bounds[field::HIGH - 1].greatest = MOST_SECONDARY;
    bounds[field::STEP - 1].greatest = MOST_SECONDARY;
    bounds[field::RATED_SECONDARY - 1].least = 1;
    bounds
};

/// The bounds of a row's fields; any rated primary but 0 counts.
pub fn bounds_of(numbers: &[u64; FIELDS]) -> &'static [Bound; FIELDS] {
    if numbers[field::RATED_PRIMARY - 1] == 0 {
        &BOUNDS
    } else {
        &SECONDARY_BOUNDS
    }
}

/// The columns of a card row with the bounds of CARD.
pub const CARD_BOUNDS: [Bound; 5] = [
    Bound { column: "pickup", least: 1, greatest: MOST_CURRENT },
    Bound { column: "delay", least: 0, greatest: MOST_DELAY },
    Bound { column: "cutoff", least: 0, greatest: MOST_CURRENT },
    Bound { column: "law", least: 0, greatest: C },
    Bound { column: "multiplier", least: 0, greatest: MOST_MULTIPLIER },
];
pub const CARD_NUMBERS: usize = CARD_BOUNDS.len();

impl Row {
    /// Nothing where pickups are keyed in primary mA [02 §1].
    pub fn ratio(&self) -> Option<Ratio> {
        let ratio = Ratio { primary: self.rated_primary, secondary: self.rated_secondary };
        (ratio.primary != 0).then_some(ratio)
    }

    /// What a number among the available pickups or on the card is in the line.
    pub fn primary(&self, number: u64) -> Primary {
        match self.ratio() {
            Some(ratio) => ratio.primary(Secondary(number)),
            None => Primary(Fraction::from(number)),
        }
    }

    /// The least such number that is in the line so much or more.
    pub fn keyed(&self, least: Primary) -> u64 {
        match self.ratio() {
            Some(ratio) => ratio.secondary(least).0,
            None => least.0.up(),
        }
    }

    /// Whether FIELD lets the row in at the place that it names.
    pub fn is_in_range(&self) -> bool {
        faulty_field(self.row, &self.numbers()).is_none()
    }

    /// The greatest high that FIELD lets in.
    pub fn most_high(&self) -> u64 {
        match self.ratio() {
            Some(Ratio { primary, secondary }) => {
                (MOST_CURRENT * secondary / primary).min(MOST_SECONDARY)
            }
            None => MOST_CURRENT,
        }
    }

    /// The bounds of CARD for the row where it is not the replaced one [02 §1].
    pub fn card_bounds(&self) -> [Bound; CARD_NUMBERS] {
        let most = if self.ratio().is_some() { MOST_SECONDARY } else { MOST_CURRENT };
        CARD_BOUNDS.map(|bound| Bound { greatest: bound.greatest.min(most), ..bound })
    }
}

/// COUNT, then ROOM; the number of rows where both are passed.
pub fn count_and_room(list_length: usize, card_length: usize) -> Result<usize, Answer> {
    let count = list_length / FIELDS;
    if !list_length.is_multiple_of(FIELDS) || count == 0 || count > MOST_ROWS {
        return Err(Answer::at(COUNT, 0));
    }
    if card_length < CARD_NUMBERS * count {
        return Err(Answer::at(ROOM, 0));
    }
    Ok(count)
}

/// FIELD over all rows, then TREE over all rows.
pub fn read_list(list: &[u64]) -> Result<Vec<Row>, Answer> {
    let numbers = list.as_chunks::<FIELDS>().0;
    for (place, row) in (1..).zip(numbers) {
        if let Some(field) = faulty_field(place, row) {
            return Err(Answer::field(place, field));
        }
    }
    let rows: Vec<Row> = numbers.iter().map(Row::read).collect();
    match rows.iter().find(|row| !feeder_is_right(&rows, row)) {
        Some(fed) => Err(Answer::at(TREE, fed.row)),
        None => Ok(rows),
    }
}

fn faulty_field(place: u64, numbers: &[u64; FIELDS]) -> Option<u64> {
    let row = Row::read(numbers);
    for (field, (&value, bound)) in (1..).zip(numbers.iter().zip(bounds_of(numbers))) {
        let right = match field {
            field::ROW => value == place,
            field::RATED_SECONDARY if row.rated_primary == 0 => value == 0,
            field::RATED_SECONDARY => RATED_SECONDARIES.contains(&value),
            _ => bound.holds(value),
        };
        if !right {
            return Some(field as u64);
        }
    }
    if row.low > row.high {
        return Some(field::LOW as u64);
    }
    let is_too_high = row.primary(row.high) > Primary(Fraction::from(MOST_CURRENT));
    is_too_high.then_some(field::HIGH as u64)
}

/// The last row is fed by the source, every other by a later row, never by a motor.
fn feeder_is_right(rows: &[Row], fed: &Row) -> bool {
    let count = rows.len() as u64;
    if fed.row == count {
        return fed.feeds_from == 0;
    }
    fed.row < fed.feeds_from
        && fed.feeds_from <= count
        && rows[fed.feeds_from as usize - 1].kind != MOTOR
}

/// The row at the place and then the path of its feeding row, in a list whose
/// feeders are right [01 §2].
pub fn path_of(list: &[u64], place: u64) -> Vec<u64> {
    let rows = list.as_chunks::<FIELDS>().0;
    let feeder = |&row: &u64| Row::read(&rows[row as usize - 1]).feeds_from;
    std::iter::successors(Some(place), |row| Some(feeder(row)).filter(|&row| row != 0)).collect()
}

/// A list as numbers.
pub fn numbers_of(rows: &[Row]) -> Vec<u64> {
    rows.iter().flat_map(Row::numbers).collect()
}
