//! What lent memory holds before a call: dirt where it will be used, and marks
//! wherever nothing may be written.

use crate::lending::{NAMES, WIDTHS};
use crate::numbers;
use second::limits::PIECE;
use second::random::Random;

/// What the used part of the working room holds: "What it holds at entry
/// doesn't matter."
#[derive(Clone, Copy, PartialEq, Eq, Debug)]
pub enum Dirt {
    Zeros,
    Random,
    Ones,
    /// Numbers that a run could have left: places of entries, events, open
    /// procedures, sets.
    LooksAlive,
    /// Neither dirt nor marks: all memory is left as it is.
    AsItIs,
}

impl Dirt {
    /// All kinds that are put there.
    pub const ALL: [Dirt; 4] = [Dirt::Zeros, Dirt::Random, Dirt::Ones, Dirt::LooksAlive];
}

/// Puts a mark in every byte. No byte of it is 0, so that clearing one shows.
pub fn mark(bytes: &mut [u8], random: &mut Random) {
    const NO_BYTE_ZERO: u64 = 0x0101_0101_0101_0101;
    fill(bytes, || random.next_number() | NO_BYTE_ZERO);
}

/// Puts dirt into the part of a piece that is used. The piece is the number of
/// its memory.
pub fn put(dirt: Dirt, piece: usize, used: &mut [u8], random: &mut Random) {
    match dirt {
        Dirt::Zeros => used.fill(0),
        Dirt::Ones => used.fill(0xFF),
        Dirt::Random => fill(used, || random.next_number()),
        Dirt::LooksAlive => {
            for (place, bytes) in used.chunks_exact_mut(WIDTHS[piece]).enumerate() {
                numbers::write(bytes, looks_alive(NAMES[piece], place, random));
            }
        }
        Dirt::AsItIs => {}
    }
}

fn fill(bytes: &mut [u8], mut next: impl FnMut() -> u64) {
    let mut eights = bytes.chunks_exact_mut(8);
    for eight in &mut eights {
        eight.copy_from_slice(&next().to_le_bytes());
    }
    let rest = eights.into_remainder();
    rest.copy_from_slice(&next().to_le_bytes()[..rest.len()]);
}

fn looks_alive(name: &str, place: usize, random: &mut Random) -> u64 {
    match name {
        "heads" | "links" => u64::from(random.below(PIECE as u32 + 1)),
        "events" => u64::from(random.below(40)),
        "procedures" => u64::from(random.below(4)),
        "sets" => random.pick(&[0, 1, 2, 3, 1 << 63, u64::MAX]),
        // Each procedure open within the one before it.
        "starts" => place as u64,
        "joins" => place as u64 + 1,
        _ => unreachable!("no piece has this name"),
    }
}

#[cfg(test)]
mod tests {
    use super::*;
    use crate::lending::FIRST_PIECE;

    #[test]
    fn no_byte_of_a_mark_is_zero() {
        let mut bytes = [0; 1_003];
        mark(&mut bytes, &mut Random::from_seed(3));
        assert!(bytes.iter().all(|byte| *byte != 0));
    }

    #[test]
    fn every_kind_of_dirt_goes_to_the_last_number() {
        for (piece, width) in WIDTHS.into_iter().enumerate().skip(FIRST_PIECE) {
            let mut seen = Vec::new();
            for dirt in Dirt::ALL {
                let mut used = vec![0xAA; PIECE * width];
                put(dirt, piece, &mut used, &mut Random::from_seed(3));
                let last = used[used.len() - width..].to_vec();
                assert_ne!(last, vec![0xAA; width], "{dirt:?}");
                assert!(!seen.contains(&used), "{dirt:?}");
                seen.push(used);
            }
        }
    }

    #[test]
    fn what_looks_alive_leads_to_entries() {
        let mut heads = vec![0; PIECE * 4];
        let random = &mut Random::from_seed(3);
        put(Dirt::LooksAlive, FIRST_PIECE, &mut heads, random);
        assert!(heads
            .chunks_exact(4)
            .map(numbers::read)
            .all(|head| head <= PIECE as u64));
    }
}
