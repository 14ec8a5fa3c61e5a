//! Families of lawful traces: trees of spawns with syncs, locks and accesses.

use super::shape::{whole, Shape};
use super::writing::Writing;
use crate::random::Random;

pub fn any_tree(random: &mut Random) -> Vec<u8> {
    let shape = Shape::any(random);
    whole(&shape, random)
}

/// So short that after many numbers nearly every small trace has come up.
pub fn tiny(random: &mut Random) -> Vec<u8> {
    let shape = Shape {
        events: random.between(1, 12),
        first_location: 0,
        locations: random.pick(&[1, 1, 2]),
        first_lock: 0,
        locks: random.pick(&[0, 1, 2]),
        most_held: 2,
        most_depth: 3,
        often: [12, 9, 5, 8, 5, 8, 12],
    };
    whole(&shape, random)
}

/// One body in the other, with accesses on the way down and up.
pub fn deep(random: &mut Random) -> Vec<u8> {
    let mut writing = Writing::at_the_start();
    let depth = random.pick(&[5, 20, 60]);
    let way_down = Shape {
        events: 3,
        often: [0, 0, 1, 3, 2, 4, 4],
        ..Shape::any(random)
    };
    for _ in 0..depth {
        writing.spawn();
        way_down.grow(random, &mut writing);
    }
    let spawns = random.pick(&[0, 1, 4]);
    let way_up = Shape {
        events: 4,
        often: [spawns, 0, 1, 3, 2, 4, 4],
        most_depth: 99,
        ..way_down
    };
    while writing.depth > 0 {
        writing.give_back();
        way_up.grow(random, &mut writing);
        if random.chance(30) && writing.depth > 0 {
            writing.give_back();
        }
    }
    writing.finish();
    writing.bytes
}

/// Many small bodies beside each other, with a sync now and then.
pub fn wide(random: &mut Random) -> Vec<u8> {
    let mut writing = Writing::at_the_start();
    let bodies = random.pick(&[10, 40, 120]);
    let syncs = random.pick(&[0, 3, 20, 60]);
    let body = Shape {
        events: 5,
        often: [0, 0, 1, 6, 3, 5, 5],
        ..Shape::any(random)
    };
    for _ in 0..bodies {
        writing.spawn();
        body.grow(random, &mut writing);
        writing.give_back();
        if random.chance(30) {
            body.grow(random, &mut writing);
        }
        if random.chance(syncs) {
            writing.sync();
        }
    }
    writing.finish();
    writing.bytes
}

/// One location and many lock sets, so that its list grows and shrinks.
pub fn one_location(random: &mut Random) -> Vec<u8> {
    let shape = Shape {
        events: random.pick(&[60, 200, 500]),
        locations: 1,
        first_lock: random.below(50),
        locks: random.between(2, 9),
        most_held: random.pick(&[2, 4, 9]) as usize,
        often: [6, 6, random.below(4), 30, 22, 15, 15],
        ..Shape::any(random)
    };
    whole(&shape, random)
}

pub fn many_locations(random: &mut Random) -> Vec<u8> {
    let shape = Shape {
        first_location: 0,
        locations: 4_096,
        ..Shape::any(random)
    };
    whole(
        &Shape {
            events: 400,
            ..shape
        },
        random,
    )
}

/// Up to all 63 locks, and many held at once.
pub fn many_locks(random: &mut Random) -> Vec<u8> {
    let shape = Shape {
        events: 300,
        first_lock: 0,
        locks: 63,
        most_held: random.pick(&[5, 30, 63]) as usize,
        often: [1, 1, 1, 60, random.pick(&[5, 50]), 8, 8],
        ..Shape::any(random)
    };
    whole(&shape, random)
}

pub fn mostly_reads(random: &mut Random) -> Vec<u8> {
    let writes = random.pick(&[0, 1, 3]);
    let shape = Shape {
        often: [10, 10, 3, 8, 6, 40, writes],
        ..Shape::any(random)
    };
    whole(&shape, random)
}

/// Syncs at every level, so that most pairs are in series.
pub fn many_syncs(random: &mut Random) -> Vec<u8> {
    let shape = Shape {
        often: [15, 12, 25, 8, 6, 15, 15],
        ..Shape::any(random)
    };
    whole(&shape, random)
}
