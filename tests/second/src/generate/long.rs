//! Traces up to the longest that may be read. They are no families: each takes
//! seconds, so they are made by name and not by number.

use super::entries::sets_by_size;
use super::shape::Shape;
use super::writing::Writing;
use crate::codes::{Code, TOO_MANY_ENTRIES, TOO_MANY_PROCEDURES};
use crate::limits::{LISTS, MOST_PROCEDURES};
use crate::random::Random;

/// Bytes enough for what comes after the events of a shape.
const FOR_THE_END: usize = 30_000;

/// How many events of a shape are made at a time.
const AT_A_TIME: u32 = 1_000;

/// The last bytes of a trace that ends in each code, and nothing for a code
/// that the end of a trace cannot bring about. No lock is held before them.
fn last_bytes(code: Code) -> Option<&'static [u8]> {
    Some(match code {
        0 => &[0x01],
        3 => &[0xFF, 0xFF],
        4 => &[0x86, 0x80, 0x80],
        5 => &[0x07],
        6 => &[0xFB, 0x03],
        7 => &[0x01, 0x06],
        8 => &[0x03, 0x00],
        9 => &[0x0B, 0x0B],
        10 => &[0x04],
        11 => &[0x00],
        13 => &[0x03, 0x06],
        14 => &[0x06],
        _ => return None,
    })
}

/// Spawns over the whole length, with syncs, locks and accesses between them.
/// However long it goes on, there are never too many entries: a location has at
/// most as many as there are sets of up to two locks, with the mark and without.
fn long_shape(random: &mut Random) -> Shape {
    let (locations, locks) = random.pick(&[(1, 3), (15, 3), (290, 3), (500, 2), (2_000, 0)]);
    Shape {
        events: AT_A_TIME,
        first_location: random.pick(&[0, LISTS as u32 - locations]),
        locations,
        first_lock: random.pick(&[0, 63 - locks]),
        locks,
        most_held: 2,
        most_depth: random.pick(&[1, 3, 12]),
        often: [
            random.between(5, 20),
            random.between(5, 20),
            random.between(5, 20),
            8_000,
            8_000,
            random.between(3_000, 20_000),
            random.between(3_000, 20_000),
        ],
    }
}

/// A trace of just so many bytes whose last event is the one that brings about
/// the code. Main has no body open before it, and syncs fill what is left over.
pub fn ending_in(code: Code, bytes: usize, random: &mut Random) -> Option<Vec<u8>> {
    let last = last_bytes(code)?;
    let shape = long_shape(random);
    let mut writing = Writing::at_the_start();
    while writing.bytes.len() + FOR_THE_END < bytes {
        shape.grow(random, &mut writing);
    }
    while writing.depth > 0 {
        writing.give_back();
    }
    if code == TOO_MANY_PROCEDURES {
        while writing.begun < MOST_PROCEDURES {
            writing.spawn();
            writing.give_back();
        }
    }
    writing.sync();
    if code == TOO_MANY_ENTRIES {
        // After the sync each write drops the whole list of its location. The
        // lists of more than one entry come first.
        let locations = shape.first_location..LISTS as u32;
        locations
            .chain(0..shape.first_location)
            .for_each(|location| writing.write(location));
    }
    writing.bytes.resize(bytes - last.len(), 0x02);
    writing.bytes.extend(last);
    Some(writing.bytes)
}

/// One sync after the other, then main's return: as many events as may be.
pub fn syncs(bytes: usize) -> Vec<u8> {
    let mut trace = vec![0x02; bytes];
    trace[bytes - 1] = 0x01;
    trace
}

/// As many races as may be: a body writes, and every access after it races.
pub fn races(bytes: usize, random: &mut Random) -> Vec<u8> {
    const LOCATIONS: u32 = 15;
    let mut writing = Writing::at_the_start();
    writing.spawn();
    (0..LOCATIONS).for_each(|location| writing.write(location));
    writing.give_back();
    while writing.bytes.len() < bytes - 1 {
        writing.access(random.chance(50), random.below(LOCATIONS));
    }
    writing.finish();
    writing.bytes
}

/// More visits than 32 bits can count, in a trace as long as may be: one list
/// of 300 entries, and every access after that visits all of them.
pub fn visits(bytes: usize) -> Vec<u8> {
    const LOCKS: u32 = 9;
    let mut writing = Writing::at_the_start();
    for set in sets_by_size(LOCKS).into_iter().take(300) {
        writing.hold(set);
        writing.write(0);
    }
    // No other set contains the last one, so a write drops just the one before.
    while writing.bytes.len() + writing.held.len() + 1 < bytes {
        writing.write(0);
    }
    writing.finish();
    writing.bytes
}
