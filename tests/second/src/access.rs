//! One accepted access, with what is known of it at its place in the trace.

use crate::limits::READ_MARK_BIT;
use crate::numbers::{EventNumber, ProcedureNumber};

#[derive(Clone, Copy, PartialEq, Eq, Debug)]
pub struct Access {
    pub event: EventNumber,
    pub procedure: ProcedureNumber,
    pub location: usize,
    /// The locks held at the access, lock n as bit n, without any mark.
    pub locks: u64,
    pub reads: bool,
}

impl Access {
    /// "The lock set of an access is the set of locks held at it, plus a read
    /// mark if it reads (the R-LOCK of 002)."
    pub fn lock_set(&self) -> u64 {
        if self.reads {
            self.locks | (1 << READ_MARK_BIT)
        } else {
            self.locks
        }
    }
}

#[cfg(test)]
mod tests {
    use super::*;

    #[test]
    fn the_read_mark_is_none_of_the_locks() {
        let every_lock = (1u64 << 63) - 1;
        let mut access = Access {
            event: EventNumber(0),
            procedure: ProcedureNumber(0),
            location: 0,
            locks: every_lock,
            reads: false,
        };
        assert_eq!(access.lock_set(), every_lock);
        access.reads = true;
        assert_eq!(access.lock_set(), u64::MAX);
    }
}
