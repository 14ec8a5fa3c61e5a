//! Seeded random traces, in named families. The same seed and number give the
//! same trace forever: see the table on how to add a family.

mod broken;
mod edges;
mod entries;
pub mod long;
mod refused;
mod shape;
mod trees;
mod writing;

pub use writing::Writing;

use crate::random::Random;

pub struct Family {
    pub name: &'static str,
    /// How many of all the tickets it takes.
    pub tickets: u32,
    pub make: fn(&mut Random) -> Vec<u8>,
}

const fn family(name: &'static str, tickets: u32, make: fn(&mut Random) -> Vec<u8>) -> Family {
    Family {
        name,
        tickets,
        make,
    }
}

/// One ticket is drawn for each trace.
pub const TICKETS: u32 = 10_000;

/// The family of every ticket that the table leaves over.
pub const TREE: Family = family("tree", 0, trees::any_tree);

/// The families after the first take their tickets in this order. A new one is
/// put at the end: it takes tickets from those left over to `TREE`, and the
/// traces of all others stay what they were. The heavy ones take few.
pub const FAMILIES: [Family; 34] = [
    family("tiny", 1_000, trees::tiny),
    family("deep", 300, trees::deep),
    family("wide", 300, trees::wide),
    family("one-location", 500, trees::one_location),
    family("many-locations", 200, trees::many_locations),
    family("many-locks", 200, trees::many_locks),
    family("mostly-reads", 300, trees::mostly_reads),
    family("many-syncs", 300, trees::many_syncs),
    family("cut", 400, broken::cut),
    family("bit-flips", 600, broken::bit_flips),
    family("byte-put-in", 300, broken::byte_put_in),
    family("byte-left-out", 300, broken::byte_left_out),
    family("noise", 200, broken::noise),
    family("small-noise", 400, broken::small_noise),
    family("forms", 200, broken::forms),
    family("refused-3", 150, refused::ends_inside_number),
    family("refused-4", 150, refused::wrong_form),
    family("refused-5", 150, refused::reserved_kind),
    family("refused-6", 150, refused::operand_too_large),
    family("refused-7", 150, refused::after_main),
    family("refused-8", 150, refused::lock_held),
    family("refused-9", 150, refused::locked_already),
    family("refused-10", 150, refused::not_locked),
    family("refused-14", 150, refused::main_not_returned),
    family("two-faults", 300, refused::two_faults),
    family("largest-operands", 200, refused::largest_operands),
    family("procedures", 40, edges::procedures),
    family("long-runs", 25, edges::long_runs),
    family("lengths", 40, edges::lengths),
    family("races", 25, edges::races),
    family("entries-spread", 20, entries::spread),
    family("entries-lock-sets", 8, entries::lock_sets),
    family("entries-bodies", 8, entries::bodies),
    family("entries-used-again", 20, entries::used_again),
];

/// The family that a trace of this seed and number comes from.
fn draw(random: &mut Random) -> &'static Family {
    let mut ticket = random.below(TICKETS);
    for family in &FAMILIES {
        if ticket < family.tickets {
            return family;
        }
        ticket -= family.tickets;
    }
    &TREE
}

/// The trace of the given number of the given seed.
pub fn trace(seed: u64, number: u64) -> Vec<u8> {
    let mut random = Random::of(seed, number);
    (draw(&mut random).make)(&mut random)
}

#[cfg(test)]
mod tests;
