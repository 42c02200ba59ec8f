//! Fields of one row about its ratio [02 §1], its law and its near end [02 §3], and the
//! one that FIELD must name, by hand.

use crate::row::{field::*, Row, FIELDS};

/// Changes to a row in range, by field and value; and the field to be named, if any.
pub struct RatioCase {
    pub changes: &'static [(usize, u64)],
    pub named: Option<usize>,
}

/// The row before the changes: pickups of 1 to 1,000 secondary mA behind 100/5 A.
fn keyed_in_secondary(row: &Row) -> Row {
    Row { low: 1, high: 1_000, step: 1, rated_primary: 100, rated_secondary: 5, ..*row }
}

/// The list with a row in range made into the case's.
pub fn with_ratio(list: &[u64], place: u64, case: &RatioCase) -> Vec<u64> {
    let mut list = list.to_vec();
    let row = &mut list.as_chunks_mut::<FIELDS>().0[place as usize - 1];
    *row = keyed_in_secondary(&Row::read(row)).numbers();
    for &(field, value) in case.changes {
        row[field - 1] = value;
    }
    list
}

const fn done(changes: &'static [(usize, u64)]) -> RatioCase {
    RatioCase { changes, named: None }
}

const fn named(field: usize, changes: &'static [(usize, u64)]) -> RatioCase {
    RatioCase { changes, named: Some(field) }
}

const MAX: u64 = u64::MAX;
const NO_PRIMARY: (usize, u64) = (RATED_PRIMARY, 0);
const NO_SECONDARY: (usize, u64) = (RATED_SECONDARY, 0);

/// 5,001 mA behind 20,000/1 A are 20,000 mA over 100,000,000, the last test of a row.
const COARSE: (usize, u64) = (RATED_PRIMARY, 20_000);
const OVER_1_A: (usize, u64) = (RATED_SECONDARY, 1);
const TOO_HIGH: (usize, u64) = (HIGH, 5_001);

pub const RATIO_CASES: [RatioCase; 99] = [
    done(&[]),
    // low, high and step with a ratio, and without
    done(&[(LOW, 500_000), (HIGH, 500_000)]),
    named(LOW, &[(LOW, 500_001)]),
    named(LOW, &[(LOW, 500_001), (HIGH, 500_001)]),
    named(LOW, &[(LOW, 0)]),
    done(&[(HIGH, 500_000)]),
    named(HIGH, &[(HIGH, 500_001)]),
    named(HIGH, &[(HIGH, 0)]),
    done(&[(STEP, 500_000)]),
    named(STEP, &[(STEP, 500_001)]),
    named(STEP, &[(STEP, 0)]),
    done(&[NO_PRIMARY, NO_SECONDARY, (LOW, 500_001), (HIGH, 500_001), (STEP, 500_001)]),
    done(&[NO_PRIMARY, NO_SECONDARY, (LOW, 1), (HIGH, 100_000_000), (STEP, 100_000_000)]),
    named(LOW, &[NO_PRIMARY, NO_SECONDARY, (LOW, 100_000_001)]),
    named(HIGH, &[NO_PRIMARY, NO_SECONDARY, (HIGH, 100_000_001)]),
    named(STEP, &[NO_PRIMARY, NO_SECONDARY, (STEP, 100_000_001)]),
    // the rated primary
    done(&[NO_PRIMARY, NO_SECONDARY]),
    done(&[(RATED_PRIMARY, 1)]),
    done(&[(RATED_PRIMARY, 20_000)]),
    named(RATED_PRIMARY, &[(RATED_PRIMARY, 20_001)]),
    named(RATED_PRIMARY, &[(RATED_PRIMARY, MAX)]),
    // the rated secondary, with a rated primary and without
    named(RATED_SECONDARY, &[NO_SECONDARY]),
    done(&[(RATED_SECONDARY, 1)]),
    named(RATED_SECONDARY, &[(RATED_SECONDARY, 2)]),
    named(RATED_SECONDARY, &[(RATED_SECONDARY, 3)]),
    named(RATED_SECONDARY, &[(RATED_SECONDARY, 4)]),
    done(&[(RATED_SECONDARY, 5)]),
    named(RATED_SECONDARY, &[(RATED_SECONDARY, 6)]),
    named(RATED_SECONDARY, &[(RATED_SECONDARY, MAX)]),
    named(RATED_SECONDARY, &[NO_PRIMARY, (RATED_SECONDARY, 1)]),
    named(RATED_SECONDARY, &[NO_PRIMARY, (RATED_SECONDARY, 2)]),
    named(RATED_SECONDARY, &[NO_PRIMARY, (RATED_SECONDARY, 4)]),
    named(RATED_SECONDARY, &[NO_PRIMARY, (RATED_SECONDARY, 5)]),
    named(RATED_SECONDARY, &[NO_PRIMARY, (RATED_SECONDARY, 6)]),
    named(RATED_SECONDARY, &[NO_PRIMARY, (RATED_SECONDARY, MAX)]),
    named(RATED_SECONDARY, &[(RATED_PRIMARY, 1), NO_SECONDARY]),
    named(RATED_SECONDARY, &[(RATED_PRIMARY, 20_000), NO_SECONDARY]),
    // a rated primary out of range still makes low, high and step secondary
    named(LOW, &[(RATED_PRIMARY, 20_001), (LOW, 500_001)]),
    named(HIGH, &[(RATED_PRIMARY, 20_001), (HIGH, 500_001)]),
    named(STEP, &[(RATED_PRIMARY, 20_001), (STEP, 500_001)]),
    named(LOW, &[(RATED_PRIMARY, MAX), (LOW, 500_001)]),
    named(HIGH, &[(RATED_PRIMARY, MAX), (HIGH, 500_001)]),
    named(STEP, &[(RATED_PRIMARY, MAX), (STEP, 500_001)]),
    named(LOW, &[(RATED_SECONDARY, 0), (LOW, 500_001)]),
    named(RATED_PRIMARY, &[(RATED_PRIMARY, 20_001), (HIGH, 500_000)]),
    named(RATED_PRIMARY, &[(RATED_PRIMARY, 20_001), (RATED_SECONDARY, 7)]),
    named(RATED_PRIMARY, &[(RATED_PRIMARY, MAX), NO_SECONDARY]),
    named(RATED_SECONDARY, &[NO_PRIMARY, (RATED_SECONDARY, 5), (LOW, 500_001), (HIGH, 500_001)]),
    // high at 100,000,000 primary mA, or just below it, and above
    done(&[(RATED_PRIMARY, 200), OVER_1_A, (HIGH, 500_000)]),
    named(HIGH, &[(RATED_PRIMARY, 201), OVER_1_A, (HIGH, 500_000)]),
    done(&[(RATED_PRIMARY, 201), OVER_1_A, (HIGH, 497_512)]),
    named(HIGH, &[(RATED_PRIMARY, 201), OVER_1_A, (HIGH, 497_513)]),
    done(&[(RATED_PRIMARY, 1_000), (HIGH, 500_000)]),
    named(HIGH, &[(RATED_PRIMARY, 1_001), (HIGH, 500_000)]),
    done(&[COARSE, OVER_1_A, (HIGH, 5_000)]),
    named(HIGH, &[COARSE, OVER_1_A, TOO_HIGH]),
    done(&[COARSE, (HIGH, 25_000)]),
    named(HIGH, &[COARSE, (HIGH, 25_001)]),
    named(HIGH, &[COARSE, OVER_1_A, TOO_HIGH, (LOW, 5_001)]),
    // and low above high over that
    named(LOW, &[COARSE, OVER_1_A, TOO_HIGH, (LOW, 5_002)]),
    named(LOW, &[COARSE, OVER_1_A, (HIGH, 5_000), (LOW, 5_001)]),
    // and the own range of every field over that
    named(ROW, &[COARSE, OVER_1_A, TOO_HIGH, (ROW, 0)]),
    named(FEEDS_FROM, &[COARSE, OVER_1_A, TOO_HIGH, (FEEDS_FROM, 257)]),
    named(KIND, &[COARSE, OVER_1_A, TOO_HIGH, (KIND, 4)]),
    named(VOLTS, &[COARSE, OVER_1_A, TOO_HIGH, (VOLTS, 99)]),
    named(WORK, &[COARSE, OVER_1_A, TOO_HIGH, (WORK, 0)]),
    named(SELFSTART, &[COARSE, OVER_1_A, TOO_HIGH, (SELFSTART, 999)]),
    named(RETURN, &[COARSE, OVER_1_A, TOO_HIGH, (RETURN, 1_001)]),
    named(FAR, &[COARSE, OVER_1_A, TOO_HIGH, (FAR, 0)]),
    named(CLEAR, &[COARSE, OVER_1_A, TOO_HIGH, (CLEAR, 100_000_001)]),
    named(NEAR, &[COARSE, OVER_1_A, TOO_HIGH, (NEAR, 0)]),
    named(FACTOR, &[COARSE, OVER_1_A, TOO_HIGH, (FACTOR, 2_001)]),
    named(LOW, &[COARSE, OVER_1_A, TOO_HIGH, (LOW, 0)]),
    named(STEP, &[COARSE, OVER_1_A, TOO_HIGH, (STEP, 500_001)]),
    named(DEVICE, &[COARSE, OVER_1_A, TOO_HIGH, (DEVICE, 4)]),
    named(FLOOR, &[COARSE, OVER_1_A, TOO_HIGH, (FLOOR, 100_001)]),
    named(CEILING, &[COARSE, OVER_1_A, TOO_HIGH, (CEILING, 100_001)]),
    named(BACKED, &[COARSE, OVER_1_A, TOO_HIGH, (BACKED, 2)]),
    named(RATED_PRIMARY, &[(RATED_PRIMARY, 20_001), OVER_1_A, TOO_HIGH]),
    named(RATED_SECONDARY, &[COARSE, TOO_HIGH, (RATED_SECONDARY, 2)]),
    named(LAW, &[COARSE, OVER_1_A, TOO_HIGH, (LAW, 3)]),
    named(NEAR_GREATEST, &[COARSE, OVER_1_A, TOO_HIGH, (NEAR_GREATEST, 0)]),
    // the law, and the greatest current at the near end, whatever the law
    done(&[(LAW, 0)]),
    done(&[(LAW, 1)]),
    done(&[(LAW, 2)]),
    named(LAW, &[(LAW, 3)]),
    named(LAW, &[(LAW, MAX)]),
    done(&[(NEAR_GREATEST, 1)]),
    done(&[(NEAR_GREATEST, 100_000_000)]),
    named(NEAR_GREATEST, &[(LAW, 0), (NEAR_GREATEST, 0)]),
    named(NEAR_GREATEST, &[(LAW, 1), (NEAR_GREATEST, 0)]),
    named(NEAR_GREATEST, &[(LAW, 2), (NEAR_GREATEST, 0)]),
    named(NEAR_GREATEST, &[(NEAR_GREATEST, 100_000_001)]),
    named(NEAR_GREATEST, &[NO_PRIMARY, NO_SECONDARY, (LAW, 2), (NEAR_GREATEST, MAX)]),
    // after the ratings, each before the next, and before low above high
    named(RATED_SECONDARY, &[NO_SECONDARY, (LAW, 3), (NEAR_GREATEST, 0)]),
    named(RATED_PRIMARY, &[(RATED_PRIMARY, 20_001), (NEAR_GREATEST, 0)]),
    named(LAW, &[(LAW, 3), (NEAR_GREATEST, 0), (LOW, 1_001)]),
    named(NEAR_GREATEST, &[(NEAR_GREATEST, 0), (LOW, 1_001)]),
    named(LOW, &[(LAW, 2), (NEAR_GREATEST, 1), (LOW, 1_001)]),
];
