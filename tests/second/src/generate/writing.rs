//! Writes events as bytes, and keeps in mind which locks are held and how many
//! procedures are open, so that a family can stay lawful where it wants to.

use crate::kinds::{Kind, LOCK, READ, RETURN, SPAWN, SYNC, UNLOCK, WRITE};
use crate::limits::{BITS_OF_A_GROUP, KINDS_IN_ALL};

pub struct Writing {
    pub bytes: Vec<u8>,
    /// The locks held, in the order of taking.
    pub held: Vec<u32>,
    /// How many procedures are open, main not counted.
    pub depth: usize,
    /// How many procedures have begun, main counted.
    pub begun: usize,
}

impl Writing {
    pub fn at_the_start() -> Writing {
        Writing {
            bytes: Vec::new(),
            held: Vec::new(),
            depth: 0,
            begun: 1,
        }
    }

    /// One number in its shortest form, lowest group first.
    pub fn number(&mut self, number: u32) {
        let lowest = (number % (1 << BITS_OF_A_GROUP)) as u8;
        let higher = number >> BITS_OF_A_GROUP;
        if higher == 0 {
            self.bytes.push(lowest);
        } else {
            self.bytes.push(lowest | 0x80);
            self.number(higher);
        }
    }

    /// One event, lawful or not.
    pub fn event(&mut self, kind: Kind, operand: u32) {
        self.number(operand * KINDS_IN_ALL + kind as u32);
    }

    /// A spawn; locks held are released first, as for return and sync.
    pub fn spawn(&mut self) {
        self.release_all();
        self.event(SPAWN, 0);
        self.depth += 1;
        self.begun += 1;
    }

    pub fn give_back(&mut self) {
        self.release_all();
        self.event(RETURN, 0);
        self.depth = self.depth.saturating_sub(1);
    }

    pub fn sync(&mut self) {
        self.release_all();
        self.event(SYNC, 0);
    }

    pub fn lock(&mut self, lock: u32) {
        self.event(LOCK, lock);
        self.held.push(lock);
    }

    pub fn unlock(&mut self, lock: u32) {
        self.event(UNLOCK, lock);
        self.held.retain(|held| *held != lock);
    }

    pub fn read(&mut self, location: u32) {
        self.event(READ, location);
    }

    pub fn write(&mut self, location: u32) {
        self.event(WRITE, location);
    }

    pub fn access(&mut self, reads: bool, location: u32) {
        self.event(if reads { READ } else { WRITE }, location);
    }

    pub fn release_all(&mut self) {
        while let Some(&lock) = self.held.last() {
            self.unlock(lock);
        }
    }

    /// Takes and releases until just the locks of `set` are held, lock n as bit n.
    pub fn hold(&mut self, set: u64) {
        for lock in self.held.clone() {
            if set >> lock & 1 == 0 {
                self.unlock(lock);
            }
        }
        for lock in 0..63 {
            if set >> lock & 1 == 1 && !self.held.contains(&lock) {
                self.lock(lock);
            }
        }
    }

    /// Releases all locks and lets every open procedure return, main last.
    pub fn finish(&mut self) {
        for _ in 0..=self.depth {
            self.give_back();
        }
    }
}
