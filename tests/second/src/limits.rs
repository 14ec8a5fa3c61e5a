//! Every limit of 01, each under a name and in one place.

/// "A number has at most three groups."
pub const MOST_GROUPS: usize = 3;

/// "each in groups of seven bits"
pub const BITS_OF_A_GROUP: u32 = 7;

/// "The kind is the number mod 8, the operand the number divided by 8"
pub const KINDS_IN_ALL: u32 = 8;

/// Code 2: "the trace is longer than 16,777,216 bytes"
pub const MOST_BYTES: usize = 16_777_216;

/// Code 11: "spawn when 4,096 procedures have begun, main counted"
pub const MOST_PROCEDURES: usize = 4_096;

/// Code 13: "after the rules above more than 4,096 entries would be kept in all"
pub const MOST_ENTRIES: usize = 4_096;

/// "The working room starts with 4,096 empty lists."
pub const LISTS: usize = 4_096;

/// "Working room: the team fixes its sizes in docs/": seven pieces, each of so
/// many numbers.
pub const PIECES: usize = 7;
pub const PIECE: usize = 4_096;

/// "locks 0 to 62, and the read mark": the mark takes the one bit left over.
pub const READ_MARK_BIT: u32 = 63;

/// "lent 32-bit numbers, three to an entry"
pub const NUMBERS_OF_AN_ENTRY: usize = 3;

/// "The program takes up to 65,536 bytes"
pub const MOST_BYTES_TO_PRINT: usize = 65_536;

/// "prints at most 1,024 race lines"
pub const MOST_RACE_LINES: usize = 1_024;
