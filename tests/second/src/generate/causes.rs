//! Lists refused for one row's pickup, by what P3 and P4 are there [02 §2].

use super::lists::{backup_bound, keyed_at, zone_bound};
use super::{accepted, Rng};
use crate::answer::{Answer, OWN_ZONE};
use crate::conditions::Fed;
use crate::row::*;
use crate::whole::{fed_rows, Settings};

/// How P4 stands for a fed row.
#[derive(Clone, Copy, Debug, PartialEq, Eq)]
enum Backup {
    NotAsked,
    Holds,
    Fails,
    FailsByMore,
}

use Backup::*;

/// P3 of a row, P4 for two rows that it feeds, in their order, and which of
/// the two BACKUP names; OWN ZONE where it names none.
#[derive(Clone, Copy, Debug)]
pub struct Cause {
    pub name: &'static str,
    zone_holds: bool,
    backup: [Backup; 2],
    named: Option<usize>,
}

const fn cause(
    name: &'static str,
    zone_holds: bool,
    backup: [Backup; 2],
    named: Option<usize>,
) -> Cause {
    Cause { name, zone_holds, backup, named }
}

pub const CAUSES: [Cause; 9] = [
    cause("P3", false, [Holds, Holds], None),
    cause("P3, and P4 of the first", false, [FailsByMore, Holds], None),
    cause("P3, and P4 of both", false, [Fails, FailsByMore], None),
    cause("P4 of the first", true, [Fails, Holds], Some(0)),
    cause("P4 of the first, the second not backed", true, [Fails, NotAsked], Some(0)),
    cause("P4 of the second", true, [Holds, Fails], Some(1)),
    cause("P4 of the second, the first not backed", true, [NotAsked, Fails], Some(1)),
    cause("P4 of both, of the first by more", true, [FailsByMore, Fails], Some(0)),
    cause("P4 of both, of the second by more", true, [Fails, FailsByMore], Some(0)),
];

/// A list, the refusal that it must get, and the three rows made for it.
pub struct Refused {
    pub list: Vec<u64>,
    pub answer: Answer,
    pub rows: [u64; 3],
}

/// Takes an accepted list to one refused for that cause at a row that feeds two
/// or more. Nothing where no row of the list will do.
pub fn refused_for(list: &[u64], cause: &Cause, seed: u64) -> Option<Refused> {
    let (rows, settings) = accepted(list)?;
    let mut rng = Rng::new(seed);
    let start = rng.below(rows.len() as u64) as usize;
    (0..rows.len())
        .find_map(|k| put_in(&mut rng, &rows, &settings, (start + k) % rows.len(), cause))
}

fn put_in(
    rng: &mut Rng,
    rows: &[Row],
    settings: &[Settings],
    at: usize,
    cause: &Cause,
) -> Option<Refused> {
    let fed = fed_rows(rows, settings, rows[at].row);
    let second = rng.between(1, (fed.len() as u64).checked_sub(1)?.max(1)) as usize;
    let pair = [fed.get(rng.below(second as u64) as usize)?, fed.get(second)?];
    let mut row = rows[at];
    row.low = settings[at].pickup.max(keyed_at(&row, telling_pickup(&row, &pair)));
    row.high = row.high.max(row.low);
    row.far = zone_bound(row.primary(row.low)) - u64::from(!cause.zone_holds);
    // DELAY comes after all of them.
    if rng.chance(50) {
        (row.floor, row.ceiling) = (1, 0);
    }
    let mut rows = rows.to_vec();
    rows[at] = row;
    for below in rows.iter_mut().filter(|below| below.feeds_from == row.row) {
        below.backed = 0;
    }
    for (below, backup) in pair.into_iter().zip(cause.backup) {
        rows[below.row.row as usize - 1] = with_backup(below, &row, backup);
    }
    let fits = rows.iter().all(|row| row.far <= MOST_CURRENT && row.high <= row.most_high());
    let [first, second] = pair.map(|below| below.row.row);
    let answer = match cause.named {
        Some(of_pair) => Answer::backup(row.row, [first, second][of_pair]),
        None => Answer::at(OWN_ZONE, row.row),
    };
    fits.then(|| Refused { list: numbers_of(&rows), answer, rows: [first, second, row.row] })
}

/// A pickup at which P4 can fail by a little and by more for either row, which
/// keeps its own zone: by the greater volts once and again.
fn telling_pickup(row: &Row, pair: &[&Fed; 2]) -> u64 {
    let own_zone: fn(&Fed) -> u64 = |below| zone_bound(below.pickup()) * below.row.volts;
    let most = |of: fn(&Fed) -> u64| of(pair[0]).max(of(pair[1]));
    let reach = most(own_zone) + most(|below| below.row.volts);
    10 * reach / (12 * row.volts) + 1
}

fn with_backup(below: &Fed, row: &Row, backup: Backup) -> Row {
    let bound = backup_bound(&below.row, row, row.primary(row.low));
    let least = zone_bound(below.pickup());
    let far = match backup {
        Holds => bound,
        Fails => bound - 1,
        NotAsked | FailsByMore => least,
    };
    Row { far, backed: u64::from(backup != NotAsked), ..below.row }
}
