//! "The kinds stand in a table with one row of four entries for each of the
//! eight kinds". The event name is not one of the four entries.

pub type Kind = usize;

pub const SPAWN: Kind = 0;
pub const RETURN: Kind = 1;
pub const SYNC: Kind = 2;
pub const LOCK: Kind = 3;
pub const UNLOCK: Kind = 4;
pub const READ: Kind = 5;
pub const WRITE: Kind = 6;
pub const RESERVED: Kind = 7;

pub struct Row {
    pub event: &'static str,
    pub largest_operand: u32,
    pub lawful_with_a_lock_held: bool,
    pub access: bool,
    pub read_mark: bool,
}

const fn row(event: &'static str, largest_operand: u32, marks: [bool; 3]) -> Row {
    let [lawful_with_a_lock_held, access, read_mark] = marks;
    Row {
        event,
        largest_operand,
        lawful_with_a_lock_held,
        access,
        read_mark,
    }
}

pub const TABLE: [Row; 8] = [
    row("spawn", 0, [false, false, false]),
    row("return", 0, [false, false, false]),
    row("sync", 0, [false, false, false]),
    row("lock", 62, [true, false, false]),
    row("unlock", 62, [true, false, false]),
    row("read", 4_095, [true, true, true]),
    row("write", 4_095, [true, true, false]),
    row("reserved", 0, [false, false, false]),
];
