//! Families near the limit on entries kept in all.

use super::edges::near;
use super::writing::Writing;
use crate::limits::{LISTS, MOST_ENTRIES};
use crate::random::Random;

/// Writes to so many different locations, one entry each, in a shifted order.
fn fill(writing: &mut Writing, entries: usize, random: &mut Random) {
    let shift = random.below(LISTS as u32);
    for place in 0..entries as u32 {
        writing.write((place + shift) % LISTS as u32);
    }
}

/// One more access that is kept beside what is there: under a lock of its own.
fn one_more(writing: &mut Writing, lock: u32, random: &mut Random) {
    writing.hold(1 << lock);
    let reads = random.chance(50);
    writing.access(reads, random.below(LISTS as u32));
}

/// 4,095, 4,096 or 4,097 entries spread over locations, then accesses that
/// take the room of what they drop, then perhaps one too many.
pub fn spread(random: &mut Random) -> Vec<u8> {
    let mut writing = Writing::at_the_start();
    let wanted = near(MOST_ENTRIES, random);
    let spread = wanted.min(LISTS) - random.below(4) as usize;
    fill(&mut writing, spread, random);
    for lock in 0..(wanted - spread) as u32 {
        one_more(&mut writing, lock, random);
    }
    writing.release_all();
    for _ in 0..random.below(200) {
        writing.write(random.below(LISTS as u32));
    }
    if random.chance(50) {
        one_more(&mut writing, 10, random);
    }
    writing.finish();
    writing.bytes
}

/// All sets of so many locks, the smaller ones first.
pub fn sets_by_size(locks: u32) -> Vec<u64> {
    let mut sets: Vec<u64> = (0..1 << locks).collect();
    sets.sort_by_key(|set| set.count_ones());
    sets
}

/// Many lock sets at few locations. A larger set after a smaller one drops
/// nothing, so every set stays: in all 4,096, and perhaps one more.
pub fn lock_sets(random: &mut Random) -> Vec<u8> {
    let mut writing = Writing::at_the_start();
    let locks = random.pick(&[4, 6, 8, 10, 11]);
    let locations = (MOST_ENTRIES >> locks) as u32;
    let first_location = random.below(LISTS as u32 - locations);
    let reads = random.chance(50);
    for set in sets_by_size(locks) {
        writing.hold(set << 1);
        for location in 0..locations {
            writing.access(reads, first_location + location);
        }
    }
    if random.chance(60) {
        writing.hold(1 << 40);
        writing.access(reads, first_location);
    } else {
        // Without a lock every entry of the location is dropped, and one added.
        writing.hold(0);
        writing.access(reads, first_location);
        writing.hold(1 << 40);
        writing.access(reads, first_location);
    }
    writing.finish();
    writing.bytes
}

/// As many entries again, each made by a body of its own. Bodies are parallel,
/// so the larger sets come first: no entry lies within a later set.
pub fn bodies(random: &mut Random) -> Vec<u8> {
    let mut writing = Writing::at_the_start();
    let locks = random.pick(&[6, 8, 10]);
    let locations = (MOST_ENTRIES >> locks) as u32;
    for set in sets_by_size(locks).into_iter().rev() {
        writing.spawn();
        writing.hold(set << 3);
        for location in 0..locations {
            writing.write(location);
        }
        writing.give_back();
    }
    match random.below(3) {
        // Parallel with all, and within no set but its own: one too many.
        0 => one_more(&mut writing, 2, random),
        // After the sync a write without a lock drops a whole list.
        1 => {
            writing.sync();
            writing.write(0);
            one_more(&mut writing, 2, random);
        }
        _ => {}
    }
    writing.finish();
    writing.bytes
}

/// Dropped room used again over a long run: the total goes up to the limit and
/// down again many times, and perhaps over it at last.
pub fn used_again(random: &mut Random) -> Vec<u8> {
    let mut writing = Writing::at_the_start();
    let room = random.between(4, 40);
    let base = MOST_ENTRIES as u32 - room;
    for location in 0..base {
        writing.write(location);
    }
    // Each of these locations keeps one entry from round to round.
    let locations = random.between(1, 3);
    for _ in 0..random.between(20, 120) {
        let location = base + random.below(locations);
        for lock in 0..random.between(0, room - locations) {
            writing.hold(1 << lock);
            writing.access(random.chance(50), location);
        }
        writing.hold(0);
        writing.write(location);
    }
    if random.chance(40) {
        for lock in 0..=room {
            writing.hold(1 << lock);
            writing.write(base);
        }
    }
    writing.finish();
    writing.bytes
}
