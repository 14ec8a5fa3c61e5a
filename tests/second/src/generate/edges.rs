//! Families near the limits on procedures, bytes and race lines.

use super::shape::{beginning, whole, Shape};
use super::writing::Writing;
use crate::limits::{MOST_BYTES_TO_PRINT, MOST_PROCEDURES, MOST_RACE_LINES};
use crate::random::Random;

/// A number one below the limit, at it, or one above.
pub fn near(limit: usize, random: &mut Random) -> usize {
    limit - 1 + random.below(3) as usize
}

/// 4,095, 4,096 or 4,097 procedures begun: wide, deep or a mixture. With one
/// too many the rest is never read.
pub fn procedures(random: &mut Random) -> Vec<u8> {
    let mut writing = Writing::at_the_start();
    let wanted = near(MOST_PROCEDURES, random);
    let most_depth = random.pick(&[1, 2, 30, MOST_PROCEDURES]);
    let accesses = Shape {
        events: 3,
        often: [0, 0, 0, 2, 2, 3, 3],
        ..Shape::any(random)
    };
    let returns = if most_depth == MOST_PROCEDURES { 0 } else { 40 };
    let syncs = random.pick(&[0, 5]);
    while writing.begun < wanted {
        if writing.depth == most_depth || (writing.depth > 0 && random.chance(returns)) {
            writing.give_back();
        } else {
            writing.spawn();
        }
        if random.chance(syncs) {
            writing.sync();
        }
        if random.chance(2) {
            accesses.grow(random, &mut writing);
        }
    }
    writing.finish();
    writing.bytes
}

/// Some thousand events of any shape.
pub fn long_runs(random: &mut Random) -> Vec<u8> {
    let shape = Shape {
        events: random.between(1_000, 5_000),
        ..Shape::any(random)
    };
    whole(&shape, random)
}

/// Lengths around 65,536 bytes, with main's return as last byte or without.
pub fn lengths(random: &mut Random) -> Vec<u8> {
    let mut writing = beginning(random);
    // A body whose write the last accesses may race with, far away.
    writing.spawn();
    writing.write(3);
    writing.give_back();
    let wanted = MOST_BYTES_TO_PRINT - 2 + random.below(5) as usize;
    let filling = random.below(3);
    while writing.bytes.len() < wanted - 1_000 {
        match filling {
            0 => writing.sync(),
            1 if !writing.held.contains(&9) => writing.lock(9),
            1 => writing.unlock(9),
            _ => writing.access(random.chance(50), 1_000 + random.below(1_500)),
        }
    }
    // What is left is filled by single bytes, whatever is open or held.
    let returns = random.chance(70);
    if returns {
        writing.release_all();
        while writing.depth > 0 {
            writing.give_back();
        }
    }
    while writing.bytes.len() < wanted - 1 {
        writing.read(3);
    }
    writing.bytes.push(if returns { 0x01 } else { 0x06 });
    writing.bytes
}

/// Around 1,024 races and far more, at one location or several.
pub fn races(random: &mut Random) -> Vec<u8> {
    let mut writing = Writing::at_the_start();
    let locations = random.pick(&[1, 2, 7]);
    writing.spawn();
    for location in 0..locations {
        writing.access(false, location);
    }
    writing.give_back();
    let many = near(MOST_RACE_LINES, random);
    let wanted = random.pick(&[many, many, many, 1_500, 3_000]);
    for _ in 0..wanted {
        let location = random.below(locations);
        writing.access(random.chance(50), location);
    }
    if random.chance(80) {
        writing.finish();
    }
    writing.bytes
}
