//! Families of traces that were lawful once, and of bytes that never were.

use super::shape::{beginning, whole, Shape};
use super::trees::any_tree;
use crate::random::Random;

/// A lawful trace of which only the first bytes are left.
pub fn cut(random: &mut Random) -> Vec<u8> {
    let shape = Shape::any(random);
    // Far locations and locks, so that the cut often falls inside a number.
    let first_location = random.pick(&[20, 2_048, 4_000]);
    let first_lock = random.pick(&[0, 40]);
    let mut trace = whole(
        &Shape {
            first_location,
            first_lock,
            ..shape
        },
        random,
    );
    trace.truncate(random.below(trace.len() as u32) as usize);
    trace
}

pub fn bit_flips(random: &mut Random) -> Vec<u8> {
    let mut trace = any_tree(random);
    for _ in 0..random.between(1, 3) {
        let place = random.below(trace.len() as u32) as usize;
        trace[place] ^= 1 << random.below(8);
    }
    trace
}

pub fn byte_put_in(random: &mut Random) -> Vec<u8> {
    let mut trace = any_tree(random);
    for _ in 0..random.between(1, 2) {
        let place = random.between(0, trace.len() as u32) as usize;
        let byte = if random.chance(50) {
            random.below(15)
        } else {
            random.below(256)
        };
        trace.insert(place, byte as u8);
    }
    trace
}

pub fn byte_left_out(random: &mut Random) -> Vec<u8> {
    let mut trace = any_tree(random);
    let place = random.below(trace.len() as u32) as usize;
    trace.remove(place);
    trace
}

pub fn noise(random: &mut Random) -> Vec<u8> {
    let length = random.below(40);
    (0..length).map(|_| random.below(256) as u8).collect()
}

/// Bytes that are small events each, in any order. Main's return comes seldom.
pub fn small_noise(random: &mut Random) -> Vec<u8> {
    let choices = [
        0x00, 0x00, 0x02, 0x03, 0x04, 0x05, 0x06, 0x05, 0x06, 0x0D, 0x0E, 0x0B, 0x0C,
    ];
    let length = random.below(40);
    let returns = random.pick(&[0, 5, 25]);
    let mut byte = || {
        if random.chance(returns) {
            0x01
        } else {
            random.pick(&choices)
        }
    };
    (0..length).map(|_| byte()).collect()
}

/// After a beginning one to three groups at random: every form, short and long.
pub fn forms(random: &mut Random) -> Vec<u8> {
    let mut trace = beginning(random).bytes;
    for _ in 0..random.between(1, 3) {
        let groups = random.between(1, 4);
        for group in 1..=groups {
            let bits = random.pick(&[0x00, 0x00, 0x01, 0x05, 0x06, 0x7F, 0x03, 0x04]);
            let follows = if group < groups || random.chance(10) {
                0x80
            } else {
                0
            };
            trace.push(bits | follows);
        }
    }
    trace
}
