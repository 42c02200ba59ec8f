//! Numbers given back [01 §4], 6 retired for 11 to 13 [02 §2]; 14 [02 §3]; 16 and 17
//! [02 §11].

pub const DONE: u64 = 0;
pub const TEXT: u64 = 1;
pub const COUNT: u64 = 2;
pub const ROOM: u64 = 3;
pub const FIELD: u64 = 4;
pub const TREE: u64 = 5;
pub const DELAY: u64 = 7;
pub const STUDY: u64 = 8;
pub const CARD: u64 = 9;
pub const EDIT: u64 = 10;
pub const RANGE: u64 = 11;
pub const OWN_ZONE: u64 = 12;
pub const BACKUP: u64 = 13;
pub const CURVE: u64 = 14;
pub const INPUT: u64 = 16;
pub const SLOPE: u64 = 17;

/// A number with its place. The third number is the field for FIELD and the fed
/// row for BACKUP, otherwise 0.
#[derive(Clone, Copy, Debug, PartialEq, Eq)]
pub struct Answer {
    pub number: u64,
    pub place: u64,
    pub field: u64,
}

impl Answer {
    pub const DONE: Answer = Answer::at(DONE, 0);

    pub const fn at(number: u64, place: u64) -> Answer {
        Answer { number, place, field: 0 }
    }

    pub const fn field(place: u64, field: u64) -> Answer {
        Answer { number: FIELD, place, field }
    }

    pub const fn backup(place: u64, fed: u64) -> Answer {
        Answer { number: BACKUP, place, field: fed }
    }
}
