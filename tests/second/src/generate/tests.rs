//! Unit tests of the families: each brings about what its name says.

use super::*;
use crate::call::call;
use crate::codes::{
    ACCEPTED, FROM_BYTES, MAIN_NOT_RETURNED, TOO_MANY_ENTRIES, TOO_MANY_PROCEDURES,
};
use std::collections::BTreeSet;

fn made(name: &str, seed: u64) -> Vec<u8> {
    let family = FAMILIES.iter().find(|family| family.name == name);
    let make = family.unwrap_or_else(|| panic!("no family {name}")).make;
    make(&mut Random::from_seed(seed))
}

#[test]
fn the_tickets_leave_some_over_and_names_differ() {
    let taken: u32 = FAMILIES.iter().map(|family| family.tickets).sum();
    assert!(taken < TICKETS, "{taken}");
    for (place, family) in FAMILIES.iter().enumerate() {
        assert!(
            FAMILIES[..place]
                .iter()
                .all(|other| other.name != family.name),
            "{}",
            family.name
        );
    }
}

#[test]
fn the_refused_families_end_in_their_code() {
    for code in [3, 4, 5, 6, 7, 8, 9, 10, 14] {
        for seed in 0..100 {
            let trace = made(&format!("refused-{code}"), seed);
            assert_eq!(call(&trace).code, code, "seed {seed}");
        }
    }
}

#[test]
fn the_trees_are_accepted() {
    let trees = [
        "tiny",
        "deep",
        "wide",
        "one-location",
        "many-locks",
        "mostly-reads",
        "many-syncs",
        "races",
    ];
    for name in trees {
        for seed in 0..40 {
            let outcome = call(&made(name, seed));
            let lawful = [ACCEPTED, MAIN_NOT_RETURNED].contains(&outcome.code);
            assert!(lawful, "{name} {seed}: {}", outcome.code);
        }
    }
}

/// How many of some seeds give the code, and how many do not.
fn with_and_without(name: &str, seeds: u64, code: u32) -> (usize, usize) {
    let with = (0..seeds)
        .filter(|seed| call(&made(name, *seed)).code == code)
        .count();
    (with, seeds as usize - with)
}

#[test]
fn the_families_near_a_limit_come_to_lie_on_both_sides() {
    let names = [
        "entries-spread",
        "entries-lock-sets",
        "entries-bodies",
        "entries-used-again",
    ];
    for name in names {
        let (with, without) = with_and_without(name, 12, TOO_MANY_ENTRIES);
        assert!(with > 0 && without > 0, "{name}: {with} {without}");
    }
    let (with, without) = with_and_without("procedures", 20, TOO_MANY_PROCEDURES);
    assert!(with > 0 && without > 0, "{with} {without}");
}

#[test]
fn lengths_and_races_come_to_lie_right_beside_their_limits() {
    let lengths: BTreeSet<usize> = (0..40).map(|seed| made("lengths", seed).len()).collect();
    for length in [65_536, 65_537] {
        assert!(lengths.contains(&length), "{lengths:?}");
    }
    let races: BTreeSet<usize> = (0..40)
        .map(|seed| call(&made("races", seed)).races)
        .collect();
    for number in [1_023, 1_024, 1_025] {
        assert!(races.contains(&number), "{races:?}");
    }
}

#[test]
fn long_traces_are_as_long_as_asked_for_and_end_in_their_code() {
    for code in FROM_BYTES {
        for seed in 0..3 {
            let made = long::ending_in(code, 40_000, &mut Random::from_seed(seed));
            let trace = made.expect("every code from bytes has its last ones");
            let outcome = call(&trace);
            assert_eq!((trace.len(), outcome.code), (40_000, code), "seed {seed}");
            // At most the three bytes of the last number are left.
            assert!(outcome.offset + 3 >= trace.len(), "{code}: seed {seed}");
        }
    }
    for code in [1, 2, 12] {
        assert!(long::ending_in(code, 40_000, &mut Random::from_seed(0)).is_none());
    }
}

#[test]
fn long_traces_of_syncs_races_and_visits() {
    assert_eq!(call(&long::syncs(40_000)).events, 40_000);
    let outcome = call(&long::races(40_000, &mut Random::from_seed(0)));
    assert_eq!((outcome.code, outcome.offset), (0, 40_000));
    // All but the spawn, the 15 writes of the body, and the two returns.
    assert_eq!(outcome.races, 40_000 - 18);
    let outcome = call(&long::visits(40_000));
    assert_eq!((outcome.code, outcome.offset), (0, 40_000));
    // The first accesses visit fewer: the list is not yet full.
    assert!(outcome.visits > 37_000 * 300, "{}", outcome.visits);
}

#[test]
fn a_seed_and_a_number_give_the_same_trace_forever() {
    // A checksum over one trace of each of the first families. If a limit of
    // 01 moves, so may it.
    let mut checksum: u64 = 0;
    for family in &FAMILIES[..34] {
        for byte in (family.make)(&mut Random::from_seed(7)) {
            checksum = checksum.wrapping_mul(31).wrapping_add(u64::from(byte) + 1);
        }
    }
    assert_eq!(
        checksum, 6_112_350_077_191_849_279,
        "a family no longer makes what it made"
    );
    assert_eq!(trace(5, 17), trace(5, 17));
}
