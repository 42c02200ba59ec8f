//! The second program: everything in sections 2 to 6 of document 01, and what
//! document 02 adds, worked out again from the documents alone, plainly and
//! slowly, for comparison.

pub mod answer;
pub mod brute;
pub mod conditions;
pub mod current;
pub mod curve;
pub mod differential;
pub mod fast;
pub mod generate;
pub mod replace;
pub mod row;
pub mod study;
pub mod text;
pub mod whole;
