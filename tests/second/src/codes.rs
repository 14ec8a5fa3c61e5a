//! The codes of 01, by name, in the order in which they are tested.

pub type Code = u32;

/// "every byte accepted and main has returned"
pub const ACCEPTED: Code = 0;
/// "a piece of working room is too short"
pub const ROOM_TOO_SHORT: Code = 1;
/// "the trace is longer than 16,777,216 bytes"
pub const TRACE_TOO_LONG: Code = 2;
/// "the bytes end inside a number of fewer than three bytes"
pub const ENDS_INSIDE_NUMBER: Code = 3;
/// "a third byte has its top bit set, or the last of several groups is zero"
pub const WRONG_FORM: Code = 4;
/// "kind 7"
pub const RESERVED_KIND: Code = 5;
/// "operand above the table's largest"
pub const OPERAND_TOO_LARGE: Code = 6;
/// "an event after main's return"
pub const AFTER_MAIN: Code = 7;
/// "spawn, return or sync with a lock held (002 assumes none is)"
pub const LOCK_HELD: Code = 8;
/// "lock already held"
pub const LOCKED_ALREADY: Code = 9;
/// "unlock of a lock not held"
pub const NOT_LOCKED: Code = 10;
/// "spawn when 4,096 procedures have begun, main counted"
pub const TOO_MANY_PROCEDURES: Code = 11;
/// "an entry kept for the accessed location has its procedure in no bag"
pub const IN_NO_BAG: Code = 12;
/// "after the rules above more than 4,096 entries would be kept in all"
pub const TOO_MANY_ENTRIES: Code = 13;
/// "the bytes end between events and main has not returned"
pub const MAIN_NOT_RETURNED: Code = 14;

/// The codes that the bytes of a trace of moderate length can bring about.
/// 1 is about working room, 2 about length alone, and 12 cannot happen.
pub const FROM_BYTES: [Code; 12] = [
    ACCEPTED,
    ENDS_INSIDE_NUMBER,
    WRONG_FORM,
    RESERVED_KIND,
    OPERAND_TOO_LARGE,
    AFTER_MAIN,
    LOCK_HELD,
    LOCKED_ALREADY,
    NOT_LOCKED,
    TOO_MANY_PROCEDURES,
    TOO_MANY_ENTRIES,
    MAIN_NOT_RETURNED,
];
