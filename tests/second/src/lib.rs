//! The second opinion: what 01 lays down for a trace, written a second time
//! from the scope document alone. It is slow and plain on purpose. Nothing in
//! here is shared with the checker it is compared with.

pub mod access;
pub mod agree;
pub mod bags;
pub mod call;
pub mod codes;
pub mod compare;
pub mod generate;
pub mod hexadecimal;
pub mod kept;
pub mod kinds;
pub mod limits;
pub mod numbers;
pub mod pairs;
pub mod parallel;
pub mod parts;
pub mod print;
pub mod random;
pub mod reading;
pub mod room;
pub mod serial;
pub mod tally;
pub mod vectors;
