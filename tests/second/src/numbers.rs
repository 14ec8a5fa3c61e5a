//! "An event number names a place in the trace and a procedure number names a
//! spawned body; to add or compare one with the other is a fault in the
//! program." Two types, so that the compiler refuses that fault.

#[derive(Clone, Copy, PartialEq, Eq, PartialOrd, Ord, Debug)]
pub struct EventNumber(pub usize);

#[derive(Clone, Copy, PartialEq, Eq, PartialOrd, Ord, Debug)]
pub struct ProcedureNumber(pub usize);

/// "Main is procedure 0 and runs from the start."
pub const MAIN: ProcedureNumber = ProcedureNumber(0);
