//! Lawful events at random, by a shape that says how often each kind comes.

use super::writing::Writing;
use crate::kinds::{Kind, LOCK, READ, RETURN, SPAWN, SYNC, UNLOCK};
use crate::limits::MOST_PROCEDURES;
use crate::random::Random;

#[derive(Clone, Copy)]
pub struct Shape {
    /// How many events at most, what `finish` adds not counted.
    pub events: u32,
    /// Locations from the first on, so many of them.
    pub first_location: u32,
    pub locations: u32,
    /// Locks from the first on, so many of them, and how many held at most.
    pub first_lock: u32,
    pub locks: u32,
    pub most_held: usize,
    pub most_depth: usize,
    /// How often each kind comes, by kind: spawn, return, sync, lock, unlock,
    /// read, write.
    pub often: [u32; 7],
}

impl Shape {
    /// A small shape with everything in it.
    pub fn any(random: &mut Random) -> Shape {
        let locations = random.pick(&[1, 1, 2, 3, 8, 40]);
        let locks = random.pick(&[0, 1, 2, 2, 3, 5, 12]);
        Shape {
            events: random.pick(&[12, 25, 50, 100, 250]),
            first_location: random.pick(&[0, 0, 0, 10, 2_040, 4_096 - locations]),
            locations,
            first_lock: random.pick(&[0, 0, 11, 63 - locks]),
            locks,
            most_held: random.pick(&[1, 2, 3, 12]),
            most_depth: random.pick(&[1, 2, 3, 6, 40]),
            often: [
                random.between(4, 20),
                random.between(4, 20),
                random.pick(&[0, 2, 6, 15]),
                random.between(5, 25),
                random.between(3, 20),
                random.between(5, 30),
                random.between(5, 30),
            ],
        }
    }

    /// Lawful events of this shape. Main is still open afterwards.
    pub fn grow(&self, random: &mut Random, writing: &mut Writing) {
        for _ in 0..self.events {
            let kind = self.kind(random);
            self.one(kind, random, writing);
        }
    }

    fn kind(&self, random: &mut Random) -> Kind {
        let mut ticket = random.below(self.often.iter().sum());
        for (kind, often) in self.often.iter().enumerate() {
            if ticket < *often {
                return kind;
            }
            ticket -= often;
        }
        READ
    }

    /// One event of a kind, or none where it would not be lawful.
    fn one(&self, kind: Kind, random: &mut Random, writing: &mut Writing) {
        match kind {
            SPAWN if writing.depth < self.most_depth && writing.begun < MOST_PROCEDURES => {
                writing.spawn();
            }
            RETURN if writing.depth > 0 => writing.give_back(),
            SYNC => writing.sync(),
            LOCK if self.locks > 0 && writing.held.len() < self.most_held => {
                let lock = self.first_lock + random.below(self.locks);
                if !writing.held.contains(&lock) {
                    writing.lock(lock);
                }
            }
            UNLOCK if !writing.held.is_empty() => {
                let lock = random.pick(&writing.held);
                writing.unlock(lock);
            }
            SPAWN | RETURN | LOCK | UNLOCK => {}
            access => {
                let location = self.first_location + random.below(self.locations);
                writing.access(access == READ, location);
            }
        }
    }
}

/// Some lawful events with main still open, for families that need a beginning.
pub fn beginning(random: &mut Random) -> Writing {
    let mut writing = Writing::at_the_start();
    let events = random.below(30);
    Shape {
        events,
        ..Shape::any(random)
    }
    .grow(random, &mut writing);
    writing
}

/// A lawful trace of the shape, whole.
pub fn whole(shape: &Shape, random: &mut Random) -> Vec<u8> {
    let mut writing = Writing::at_the_start();
    shape.grow(random, &mut writing);
    writing.finish();
    writing.bytes
}
