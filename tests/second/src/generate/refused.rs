//! Families that end in one refusal each, after a lawful beginning.

use super::shape::beginning;
use super::writing::Writing;
use crate::kinds::{LOCK, READ, RESERVED, RETURN, SPAWN, SYNC, TABLE, UNLOCK, WRITE};
use crate::limits::MOST_PROCEDURES;
use crate::random::Random;

/// The bytes written, and some bytes after the fault that play no part.
fn with_a_tail(mut writing: Writing, random: &mut Random) -> Vec<u8> {
    for _ in 0..random.below(4) {
        writing.bytes.push(random.below(256) as u8);
    }
    writing.bytes
}

fn group_that_another_follows(random: &mut Random) -> u8 {
    0x80 | random.below(128) as u8
}

pub fn ends_inside_number(random: &mut Random) -> Vec<u8> {
    let mut writing = beginning(random);
    for _ in 0..random.between(1, 2) {
        writing.bytes.push(group_that_another_follows(random));
    }
    writing.bytes
}

pub fn wrong_form(random: &mut Random) -> Vec<u8> {
    let mut writing = beginning(random);
    let before = random.between(1, 3);
    for _ in 0..before {
        writing.bytes.push(group_that_another_follows(random));
    }
    if before < 3 {
        writing.bytes.push(0x00);
    }
    with_a_tail(writing, random)
}

pub fn reserved_kind(random: &mut Random) -> Vec<u8> {
    let mut writing = beginning(random);
    let operand = random.pick(&[0, 0, 1, 62, 4_095, 4_096, 262_143]);
    writing.event(RESERVED, operand);
    with_a_tail(writing, random)
}

pub fn operand_too_large(random: &mut Random) -> Vec<u8> {
    let mut writing = beginning(random);
    let kind = random.pick(&[SPAWN, RETURN, SYNC, LOCK, UNLOCK, READ, WRITE]);
    let above = random.pick(&[1, 1, 2, 64, 5_000, 200_000]);
    writing.event(kind, TABLE[kind].largest_operand + above);
    with_a_tail(writing, random)
}

pub fn after_main(random: &mut Random) -> Vec<u8> {
    let mut writing = beginning(random);
    writing.finish();
    let kind = random.pick(&[SPAWN, RETURN, SYNC, LOCK, UNLOCK, READ, WRITE]);
    let operand = random.below(TABLE[kind].largest_operand + 1);
    writing.event(kind, operand);
    with_a_tail(writing, random)
}

/// Something lawful, and a lock that is held after it.
fn with_a_lock_held(random: &mut Random) -> Writing {
    let mut writing = beginning(random);
    if writing.held.is_empty() {
        writing.lock(random.below(63));
    }
    writing
}

pub fn lock_held(random: &mut Random) -> Vec<u8> {
    let mut writing = with_a_lock_held(random);
    writing.event(random.pick(&[SPAWN, RETURN, SYNC]), 0);
    with_a_tail(writing, random)
}

pub fn locked_already(random: &mut Random) -> Vec<u8> {
    let mut writing = with_a_lock_held(random);
    let lock = random.pick(&writing.held);
    writing.event(LOCK, lock);
    with_a_tail(writing, random)
}

pub fn not_locked(random: &mut Random) -> Vec<u8> {
    let mut writing = beginning(random);
    let free: Vec<u32> = (0..63)
        .filter(|lock| !writing.held.contains(lock))
        .collect();
    writing.event(UNLOCK, random.pick(&free));
    with_a_tail(writing, random)
}

pub fn main_not_returned(random: &mut Random) -> Vec<u8> {
    beginning(random).bytes
}

/// Events that break two rules at once: the one tested first is given.
pub fn two_faults(random: &mut Random) -> Vec<u8> {
    let mut writing = beginning(random);
    match random.below(5) {
        0 => writing.finish(),
        1 if !writing.held.contains(&62) => writing.lock(62),
        2 if random.chance(10) => {
            while writing.begun < MOST_PROCEDURES {
                writing.spawn();
                writing.give_back();
            }
            writing.lock(5);
            writing.event(SPAWN, 0);
        }
        _ => {}
    }
    let faults: [&[u8]; 11] = [
        &[0x80],
        &[0xFF, 0xFF],
        &[0x87, 0x00],
        &[0x88, 0x80, 0x80],
        &[0x0F],
        &[0xFF, 0xFF, 0x01],
        &[0x08],
        &[0xFB, 0x03],
        &[0xFC, 0x03],
        &[0xF3, 0x03],
        &[0xF4, 0x03],
    ];
    writing.bytes.extend(random.pick(&faults));
    with_a_tail(writing, random)
}

/// Locks 61 to 63 and locations 4,094 to 4,096: lawful or one too large.
pub fn largest_operands(random: &mut Random) -> Vec<u8> {
    let mut writing = beginning(random);
    writing.release_all();
    let too_large = if random.chance(30) { 1 } else { 0 };
    let lock = random.between(61, 62 + too_large);
    writing.lock(lock);
    for _ in 0..random.between(1, 4) {
        let location = random.between(4_094, 4_095 + too_large);
        writing.access(random.chance(50), location);
    }
    writing.unlock(random.pick(&[lock, lock, 62, 63]));
    if random.chance(50) {
        writing.finish();
    }
    writing.bytes
}
