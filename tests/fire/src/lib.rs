//! The library under fire: one call of it through the C interface, lent memory
//! between protected pages, and held against the second program in every number
//! that it returns, writes or has to leave alone.

pub mod caller;
pub mod case;
pub mod difference;
pub mod dirt;
pub mod lender;
pub mod lending;
pub mod library;
pub mod numbers;
pub mod shared;
