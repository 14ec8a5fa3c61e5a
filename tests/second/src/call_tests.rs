//! Unit tests of the call: ends of traces, code 13, and the report.

use super::*;
use crate::generate::Writing;

fn numbers(trace: &[u8]) -> [usize; 6] {
    let outcome = call(trace);
    assert_eq!(outcome.entries.len(), outcome.races);
    let Outcome {
        code,
        events,
        offset,
        races,
        visits,
        most,
        ..
    } = outcome;
    [code as usize, events, offset, races, visits, most as usize]
}

#[test]
fn the_end_of_the_bytes() {
    assert_eq!(numbers(&[0x01]), [0, 1, 1, 0, 0, 0]);
    assert_eq!(numbers(&[0x00, 0x01]), [14, 2, 2, 0, 0, 0]);
    assert_eq!(numbers(&[0x00, 0x01, 0x80]), [3, 2, 2, 0, 0, 0]);
    assert_eq!(numbers(&[0x01, 0x80]), [3, 1, 1, 0, 0, 0]);
    assert_eq!(numbers(&[0x01, 0x07]), [5, 1, 1, 0, 0, 0]);
    assert_eq!(numbers(&[0x01, 0x06]), [7, 1, 1, 0, 0, 0]);
}

#[test]
fn what_was_counted_before_a_refusal_stands() {
    // Race of 1 and 3, then a lock held twice: the second lock changes nothing.
    let trace = [0x00, 0x06, 0x01, 0x06, 0x03, 0x03, 0x06, 0x01];
    assert_eq!(numbers(&trace), [9, 5, 5, 1, 1, 1]);
    assert_eq!(call(&trace).entries, [[0, 1, 3]]);
}

#[test]
fn most_is_the_largest_number_at_one_moment() {
    // Lock 0, lock 1, unlock 1, lock 2, unlock 2, unlock 0: never three.
    assert_eq!(
        numbers(&[0x03, 0x0B, 0x0C, 0x13, 0x14, 0x04, 0x01]),
        [0, 7, 7, 0, 0, 2]
    );
}

#[test]
fn a_trace_too_long_has_only_zeros() {
    let mut trace = vec![0x02; 16_777_217];
    trace[1] = 0x03;
    assert_eq!(numbers(&trace), [2, 0, 0, 0, 0, 0]);
    trace.truncate(4);
    assert_eq!(numbers(&trace), [8, 2, 2, 0, 0, 1]);
}

/// A write to each of all 4,096 locations: as many entries as may be kept.
fn full() -> Writing {
    let mut writing = Writing::at_the_start();
    (0..4_096).for_each(|location| writing.write(location));
    writing
}

#[test]
fn one_entry_more_than_may_be_kept() {
    let mut writing = full();
    let offset = writing.bytes.len();
    assert_eq!(numbers(&writing.bytes), [14, 4_096, offset, 0, 0, 0]);
    writing.read(7);
    assert_eq!(numbers(&writing.bytes), [13, 4_096, offset, 0, 0, 0]);
}

#[test]
fn dropped_room_is_used_again() {
    let mut writing = full();
    // Each write drops the entry before it and takes its room, with one visit.
    (0..100).for_each(|_| writing.write(9));
    let offset = writing.bytes.len();
    assert_eq!(numbers(&writing.bytes), [14, 4_196, offset, 0, 100, 0]);
    // Under a lock nothing is dropped: the write after it is one too many.
    writing.lock(0);
    writing.write(9);
    assert_eq!(numbers(&writing.bytes), [13, 4_197, offset + 1, 0, 100, 1]);
}

#[test]
fn a_refused_access_is_not_reported() {
    // Location 0 is left to a spawned body, which reads it under lock 0.
    let mut writing = Writing::at_the_start();
    (1..4_096).for_each(|location| writing.write(location));
    writing.spawn();
    writing.lock(0);
    writing.read(0);
    writing.unlock(0);
    writing.give_back();
    let (events, offset) = (4_100, writing.bytes.len());
    // Main's write would race, but its entry would be one too many.
    writing.write(0);
    assert_eq!(numbers(&writing.bytes), [13, events, offset, 0, 0, 1]);
    // A read at the same place neither races nor has room; lock 0 makes it redundant.
    writing.bytes.truncate(offset);
    writing.lock(0);
    writing.read(0);
    assert_eq!(
        numbers(&writing.bytes),
        [14, events + 2, offset + 2, 0, 1, 1]
    );
}

#[test]
fn reports_of_every_small_size() {
    // Two races: entries 0 1 3 and 0 1 4.
    let outcome = call(&[0x00, 0x06, 0x01, 0x06, 0x06, 0x01]);
    let entries = [0, 1, 3, 0, 1, 4];
    assert_eq!(outcome.entries.concat(), entries);
    for lent in 0..=10usize {
        let mut report: Vec<u32> = (0..lent as u32).map(|place| 900 + place).collect();
        fill_report(&outcome, &mut report);
        let written = (lent / 3 * 3).min(entries.len());
        for (place, number) in report.iter().enumerate() {
            let kept = 900 + place as u32;
            let expected = if place < written {
                entries[place]
            } else {
                kept
            };
            assert_eq!(*number, expected, "{lent} numbers lent, place {place}");
        }
    }
}
