//! Plausible lists: trees, chains and stars, walked from the far end with the
//! least settings so far, so that margins can be laid on each condition.

use super::laws::{lay_laws, over, Laws};
use super::ratios::{key_in_secondary, Keyed};
use super::Rng;
use crate::conditions::{asked_by_fed_rows, Fed};
use crate::current::{Fraction, Primary};
use crate::curve::DEFINITE;
use crate::row::*;
use crate::whole::{fed_rows, settle, Settings};

#[derive(Clone, Copy, Debug, PartialEq, Eq)]
pub enum Shape {
    /// Each row fed by any later one.
    Tree,
    /// Each row fed by one of the next few.
    Deep,
    Chain,
    Star,
}

pub const SHAPES: [Shape; 4] = [Shape::Tree, Shape::Deep, Shape::Chain, Shape::Star];

/// What a list is made to fail by, at one row.
#[derive(Clone, Copy, PartialEq, Eq)]
pub enum Fault {
    Zone,
    Backup,
    Range,
    Ceiling,
}

/// A list of any shape and length; about half are accepted.
pub fn list(seed: u64) -> Vec<u64> {
    let mut rng = Rng::new(seed);
    let shape = rng.pick(&SHAPES);
    let most = rng.pick(&[1, 3, 8, 8, 40, 40, MOST_ROWS as u64]);
    let count = if rng.chance(3) { MOST_ROWS as u64 } else { rng.between(1, most) };
    list_shaped(shape, count, rng.any())
}

/// A list keyed in any way, with any laws.
pub fn list_shaped(shape: Shape, count: u64, seed: u64) -> Vec<u64> {
    list_with(shape, count, Keyed::of_seed(seed), Laws::of_seed(seed), seed)
}

/// A list of definite rows.
pub fn list_keyed(shape: Shape, count: u64, keyed: Keyed, seed: u64) -> Vec<u64> {
    list_with(shape, count, keyed, Laws::Definite, seed)
}

/// Ratios and laws have their numbers from streams of their own: all primary and definite,
/// the lists are those of earlier versions with four fields more, and times compare.
pub fn list_with(shape: Shape, count: u64, keyed: Keyed, laws: Laws, seed: u64) -> Vec<u64> {
    let (mut rng, mut ratios) = (Rng::new(seed), Rng::new(!seed));
    let feeders = feeders(&mut rng, shape, count);
    let depth = depth(&feeders);
    let least_volts = if laws != Laws::Definite && count > LONG { MANY_VOLTS } else { 0 };
    let faults = [Fault::Zone, Fault::Backup, Fault::Range, Fault::Ceiling];
    let fault = rng.chance(65).then(|| (rng.between(1, count), rng.pick(&faults)));
    let (mut rows, mut settings) = (Vec::new(), Vec::new());
    for (place, &feeds_from) in (1..).zip(&feeders) {
        let is_leaf = !feeders.contains(&place);
        let fed = fed_rows(&rows, &settings, place);
        let fault = fault.filter(|&(row, _)| row == place).map(|(_, fault)| fault);
        let mut row = draft(&mut rng, depth, is_leaf, least_volts, &fed);
        (row.row, row.feeds_from) = (place, feeds_from);
        if keyed.is_secondary(&mut ratios) {
            key_in_secondary(&mut ratios, &mut row, asked(&fed), depth > LONG);
        }
        let set = lay_margins(&mut rng, &mut row, &fed, fault);
        for below in rows.iter_mut().filter(|below: &&mut Row| below.feeds_from == place) {
            lay_backup(&mut rng, below, &row, row.primary(set.pickup), fault);
        }
        rows.push(row);
        settings.push(set);
    }
    rows[feeders.len() - 1].backed = rng.below(2);
    if laws != Laws::Definite {
        lay_laws(&mut Rng::new(seed.rotate_left(32)), laws, &mut rows, &settings, fault);
    }
    numbers_of(&rows)
}

pub fn feeders(rng: &mut Rng, shape: Shape, count: u64) -> Vec<u64> {
    let reach = rng.between(2, 8);
    let feeder = |place: u64, rng: &mut Rng| match shape {
        Shape::Tree => rng.between(place + 1, count),
        Shape::Deep => rng.between(place + 1, count.min(place + reach)),
        Shape::Chain => place + 1,
        Shape::Star => count,
    };
    (1..count).map(|place| feeder(place, rng)).chain([0]).collect()
}

/// Rows on the longest path.
fn depth(feeders: &[u64]) -> u64 {
    let mut lengths = vec![0; feeders.len() + 1];
    for (place, &feeder) in feeders.iter().enumerate().rev() {
        lengths[place + 1] = lengths[feeder as usize] + 1;
    }
    lengths.into_iter().max().unwrap_or(0)
}

/// On a longer path too much would be lost to rounding.
const LONG: u64 = 40;
/// With less in so many curve rows the near-end currents would be past all bounds.
const MANY_VOLTS: u64 = 6_000;

/// Pickup × volts that P2 asks for.
fn asked(fed: &[Fed]) -> u64 {
    asked_by_fed_rows(fed).map(|asked| asked.over(10).up()).max().unwrap_or(0)
}

/// A row before its margins, with the widest bounds.
fn draft(rng: &mut Rng, depth: u64, is_leaf: bool, least_volts: u64, fed: &[Fed]) -> Row {
    let kind = if is_leaf { rng.between(LINE, MOTOR) } else { rng.between(LINE, TRANSFORMER) };
    let is_long = depth > LONG;
    let (volts, work, step) =
        if is_long { lean(rng, depth, fed) } else { ample(rng, least_volts, fed) };
    let selfstart = if is_long { 1_000 } else { 100 * rng.between(10, 30) };
    let return_factor = if is_long { 1_000 } else { rng.pick(&[935, 935, 950, 1_000, 880, 817]) };
    let bound = 11 * selfstart * work / (10 * return_factor);
    let low = if rng.chance(70) { rng.between(1, bound.max(2) / 2) } else { bound };
    Row {
        row: 0,
        feeds_from: 0,
        kind,
        volts,
        work,
        selfstart,
        return_factor,
        far: MOST_CURRENT,
        clear: 1,
        near: 1,
        factor: rng.pick(&[1_000, 1_200, 1_250, 1_300, 1_999, 2_000]),
        low: if step >= 10 { low.next_multiple_of(10) } else { low }.clamp(1, MOST_CURRENT),
        high: MOST_CURRENT,
        step,
        // At 500 a row a path of 256 would pass the greatest delay.
        device: if depth > 150 { rng.pick(&[1, 2, 3, 3, 3]) } else { rng.between(1, 3) },
        floor: if is_leaf { 100 * rng.between(0, 20) } else { rng.pick(&[0, 0, 0, 1, 700]) },
        ceiling: MOST_DELAY,
        backed: 0,
        rated_primary: 0,
        rated_secondary: 0,
        law: DEFINITE,
        near_greatest: 1,
    }
}

/// Volts, work and step of an ordinary row, fed rows at the same volts or lower.
fn ample(rng: &mut Rng, least_volts: u64, fed: &[Fed]) -> (u64, u64, u64) {
    const STANDARD: [u64; 7] = [380, 400, 6_000, 10_000, 35_000, 110_000, 500_000];
    let step = rng.pick(&[1, 10, 100, 1_000, 1_000, 5_000]);
    let round = |work: u64| if work > 20_000 { work / 1_000 * 1_000 } else { work.max(1) };
    if fed.is_empty() {
        let volts = rng.pick(&STANDARD[..5]).max(least_volts);
        let power = rng.between(1, 1_000) * rng.pick(&[1_000, 100_000, 1_000_000]);
        return (volts, round(power / volts), step);
    }
    let asked = asked(fed);
    let fits = |volts: u64| asked / volts < 20_000_000;
    let greatest = fed.iter().map(|below| below.row.volts).max().unwrap_or(0);
    let risen = STANDARD.into_iter().find(|&volts| volts > greatest && fits(volts));
    let stays = fits(greatest) && rng.chance(65);
    let volts = if stays { greatest } else { risen.unwrap_or(500_000) };
    let work = asked / volts * rng.between(20, 60) / 100;
    (volts, round(work), step)
}

/// On a long path pickup × volts grows 1.1 times a row, from little to the
/// greatest there is, and nothing is lost to rounding.
fn lean(rng: &mut Rng, depth: u64, fed: &[Fed]) -> (u64, u64, u64) {
    if fed.is_empty() {
        let spare = 260_u64.saturating_sub(depth) * 2 / 3;
        let rows = rng.between(0, spare);
        let product = (0..rows).fold(200_u64, |product, _| product * 11 / 10).min(1_000_000_000);
        let pickup = product.div_ceil(500_000).max(2);
        return ((product / pickup).max(100), (pickup * 10 / 11).max(1), 1);
    }
    let asked = asked(fed);
    let pickup = asked.div_ceil(500_000).max(2);
    let work = rng.between(1, (pickup / 2).max(1));
    (asked.div_ceil(pickup).clamp(100, 500_000), work, 1)
}

/// The least number on the row's relay that is so many primary mA or more.
pub fn keyed_at(row: &Row, current: u64) -> u64 {
    row.keyed(Primary(Fraction::from(current)))
}

/// Sets all but backup to hold with a margin, often of nothing, save the fault.
fn lay_margins(rng: &mut Rng, row: &mut Row, fed: &[Fed], fault: Option<Fault>) -> Settings {
    if fault == Some(Fault::Backup) {
        // High enough for P4 to fail where the fed rows keep their own zones.
        let pickup = keyed_at(row, 3 * asked(fed) / (2 * row.volts));
        row.low = row.low.max(pickup).min(row.most_high());
    }
    let widest = Settings { pickup: row.high, delay: row.ceiling, ..Settings::default() };
    let set = settle(row, fed).unwrap_or(widest);
    let pickup = row.primary(set.pickup);
    let most = |current: u64| current.clamp(1, MOST_CURRENT);
    row.far = most(over(rng, zone_bound(pickup)));
    row.clear = most(pickup.0.down() * rng.between(1, 8));
    let above = keyed_at(row, row.clear * rng.between(5, 40) / 10);
    row.high = set.pickup.max(above).clamp(1, row.most_high());
    let bound = row.keyed(Primary((Fraction::from(row.factor) * row.clear).over(1_000)));
    let cutoff = row.low + bound.saturating_sub(row.low).div_ceil(row.step) * row.step;
    let tenths = rng.pick(&[10, 12, 12, 13, 20, 20, 30]);
    row.near = most((row.primary(cutoff).0 * tenths).over(10).down());
    row.near_greatest = row.near;
    row.ceiling = over(rng, set.delay).min(MOST_DELAY);
    match fault {
        Some(Fault::Zone) => row.far = most(zone_bound(pickup) - 1),
        Some(Fault::Range) => row.high = set.pickup.saturating_sub(1).max(row.low),
        Some(Fault::Ceiling) => row.ceiling = set.delay.saturating_sub(1),
        _ => {}
    }
    set
}

/// The far that P4 asks of a fed row.
pub fn backup_bound(below: &Row, row: &Row, Primary(pickup): Primary) -> u64 {
    (pickup * 12 * row.volts).over(10 * below.volts).up()
}

/// The far that P3 asks of a row.
pub fn zone_bound(Primary(pickup): Primary) -> u64 {
    (pickup * 3).over(2).up()
}

/// Leaves a fed row without backup, or raises its far to what P4 asks; at fault,
/// some of the fed rows have less.
fn lay_backup(rng: &mut Rng, below: &mut Row, row: &Row, pickup: Primary, fault: Option<Fault>) {
    let bound = backup_bound(below, row, pickup);
    if fault == Some(Fault::Backup) && rng.chance(60) {
        below.backed = 1;
        below.far = below.far.min(rng.pick(&[bound - 1, bound * 9 / 10]));
    } else if bound <= below.far {
        below.backed = rng.below(2);
    } else if bound <= MOST_CURRENT && rng.chance(60) {
        below.backed = 1;
        below.far = over(rng, bound).min(MOST_CURRENT);
    }
}
