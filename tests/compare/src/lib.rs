//! The proved library behind safe functions, and its comparison with the
//! second program.

pub mod alone;
pub mod answers;
pub mod boundary;
pub mod bounded_texts;
pub mod causes;
pub mod changes;
pub mod climbs;
pub mod competing;
pub mod differentials;
pub mod edges;
pub mod faults;
pub mod keyed;
pub mod laws;
pub mod lists;
pub mod multiples;
pub mod ratios;
pub mod resting;
pub mod run;
pub mod singles;
pub mod studies;
pub mod texts;
pub mod times;
pub mod verdicts;
