//! A trace taken apart, as docs/CODES.md advises where one is too large: by
//! locations, without what these do not need, and at syncs that main makes while
//! no other procedure is open. The parts have the races of the whole, no more and
//! no less.

use crate::call::{call, Outcome, RaceEntry};
use crate::codes::{ACCEPTED, MAIN_NOT_RETURNED};
use crate::kinds::{LOCK, RETURN, SPAWN, SYNC, TABLE, UNLOCK};
use crate::reading::{read_event, Event};
use std::collections::BTreeMap;

/// Some events of a trace, which are a trace themselves.
#[derive(Default)]
struct Part {
    bytes: Vec<u8>,
    /// Their numbers in the whole.
    numbers: Vec<u32>,
}

impl Part {
    fn add(&mut self, number: usize, bytes: &[u8]) {
        self.bytes.extend_from_slice(bytes);
        self.numbers.push(number as u32);
    }

    /// Its races, by the numbers that the events have in the whole.
    fn races(&self) -> Result<Vec<RaceEntry>, String> {
        let outcome = call(&self.bytes);
        if ![ACCEPTED, MAIN_NOT_RETURNED].contains(&outcome.code) {
            return Err(format!("a part is refused with code {}", outcome.code));
        }
        let in_the_whole = |event: u32| self.numbers[event as usize];
        let entries = outcome.entries.iter();
        Ok(entries
            .map(|&[location, earlier, later]| {
                [location, in_the_whole(earlier), in_the_whole(later)]
            })
            .collect())
    }
}

/// Holds the parts of the accepted part of a trace against what came of it.
pub fn check(accepted: &[u8], outcome: &Outcome) -> Result<(), String> {
    let events = events(accepted);
    for (how, parts) in [
        ("locations", by_locations(&events)),
        ("syncs", at_syncs(&events)),
    ] {
        let mut races = Vec::new();
        for part in &parts {
            races.extend(part.races().map_err(|wrong| format!("by {how}: {wrong}"))?);
        }
        races.sort_by_key(|[_, _, later]| *later);
        if races != outcome.entries {
            return Err(format!("taken apart by {how}, the races are others"));
        }
    }
    Ok(())
}

/// The events, each with its bytes.
fn events(accepted: &[u8]) -> Vec<(Event, &[u8])> {
    let mut events = Vec::new();
    let mut rest = accepted;
    while !rest.is_empty() {
        let event = read_event(rest).expect("an event that was accepted");
        let (bytes, after) = rest.split_at(event.bytes);
        events.push((event, bytes));
        rest = after;
    }
    events
}

/// The accesses to even locations and those to odd ones; what is no access is in
/// both parts, and then in each only where it is needed.
fn by_locations(events: &[(Event, &[u8])]) -> Vec<Part> {
    let with = |remainder| {
        let chosen = |event: &Event| !TABLE[event.kind].access || event.operand % 2 == remainder;
        let chosen: Vec<bool> = events.iter().map(|(event, _)| chosen(event)).collect();
        let needed = needed(events, &chosen);
        let mut part = Part::default();
        for (number, (_, bytes)) in events.iter().enumerate() {
            if needed[number] {
                part.add(number, bytes);
            }
        }
        part
    };
    vec![with(0), with(1)]
}

/// What is chosen, without each spawn and all up to its return where no access
/// that is chosen lies between, and likewise each lock and its unlock.
fn needed(events: &[(Event, &[u8])], chosen: &[bool]) -> Vec<bool> {
    let mut needed = chosen.to_vec();
    let mut accesses = 0;
    // Each with how many accesses came before it.
    let mut spawns = Vec::new();
    let mut locks = BTreeMap::new();
    for (number, (event, _)) in events.iter().enumerate() {
        match event.kind {
            SPAWN => spawns.push((number, accesses)),
            LOCK => drop(locks.insert(event.operand, (number, accesses))),
            RETURN => match spawns.pop() {
                Some((spawn, before)) if before == accesses => needed[spawn..=number].fill(false),
                _ => {}
            },
            UNLOCK => match locks.remove(&event.operand) {
                Some((lock, before)) if before == accesses => {
                    (needed[lock], needed[number]) = (false, false);
                }
                _ => {}
            },
            _ => accesses += usize::from(chosen[number] && TABLE[event.kind].access),
        }
    }
    needed
}

/// Up to each sync that main makes alone and with it, then to the end; a return
/// of main ends every part but the last.
fn at_syncs(events: &[(Event, &[u8])]) -> Vec<Part> {
    let mut parts = vec![Part::default()];
    let mut depth: usize = 0;
    for (number, (event, bytes)) in events.iter().enumerate() {
        let part = parts.last_mut().expect("there is always one");
        part.add(number, bytes);
        match event.kind {
            SPAWN => depth += 1,
            RETURN => depth = depth.saturating_sub(1),
            SYNC if depth == 0 => {
                part.bytes.push(RETURN as u8);
                parts.push(Part::default());
            }
            _ => {}
        }
    }
    parts
}

#[cfg(test)]
mod tests {
    use super::*;

    /// Two bodies write locations 0 and 1 before main does; then main syncs, and
    /// again a body and main write location 0.
    const TRACE: [u8; 11] = [
        0x00, 0x06, 0x0E, 0x01, 0x06, 0x0E, 0x02, 0x00, 0x06, 0x01, 0x06,
    ];

    #[test]
    fn parts_have_the_races_of_the_whole() {
        let outcome = call(&TRACE);
        assert_eq!(outcome.entries, [[0, 1, 4], [1, 2, 5], [0, 8, 10]]);
        assert_eq!(check(&TRACE, &outcome), Ok(()));
        let events = events(&TRACE);
        let lengths = |parts: Vec<Part>| -> Vec<usize> {
            parts.iter().map(|part| part.bytes.len()).collect()
        };
        // The second body writes no odd location.
        assert_eq!(lengths(by_locations(&events)), [9, 5]);
        assert_eq!(lengths(at_syncs(&events)), [8, 4]);
    }

    #[test]
    fn what_is_needed_stays() {
        // A body that takes lock 0 and writes, one within another that do
        // nothing, lock 1 around lock 2 and a write, lock 3 around nothing.
        let trace = [
            0x00, 0x03, 0x06, 0x04, 0x01, 0x00, 0x00, 0x02, 0x01, 0x01, 0x0B, 0x13, 0x06, 0x14,
            0x0C, 0x1B, 0x1C, 0x01,
        ];
        let events = events(&trace);
        let needed = needed(&events, &vec![true; events.len()]);
        let left_out: Vec<usize> = (0..events.len()).filter(|event| !needed[*event]).collect();
        assert_eq!(left_out, [5, 6, 7, 8, 9, 15, 16]);
        assert_eq!(check(&trace, &call(&trace)), Ok(()));
    }

    #[test]
    fn other_races_are_noticed() {
        let mut outcome = call(&TRACE);
        outcome.entries[2][1] = 4;
        assert!(check(&TRACE, &outcome).is_err());
        outcome.entries.pop();
        assert!(check(&TRACE, &outcome).is_err());
    }
}
