//! Rows that several tests begin with.

use second::row::{Row, LINE};

/// A row behind so many A over so many, with the widest choice of pickups; 0/0 is
/// keyed in primary mA. P1 asks 1.1 × work.
pub fn row(row: u64, feeds_from: u64, rated: [u64; 2], work: u64) -> Row {
    let row = Row {
        row,
        feeds_from,
        kind: LINE,
        volts: 100,
        work,
        selfstart: 1_000,
        return_factor: 1_000,
        far: 100_000_000,
        clear: 1,
        near: 1,
        factor: 1_000,
        low: 1,
        high: 0,
        step: 1,
        device: 1,
        floor: 0,
        ceiling: 100_000,
        backed: 0,
        rated_primary: rated[0],
        rated_secondary: rated[1],
        law: 0,
        near_greatest: 1,
    };
    Row { high: row.most_high(), ..row }
}
