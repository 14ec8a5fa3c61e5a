//! Unit tests of the comparison: a stand-in for the library that does all as it
//! should, or one thing wrong.

use super::*;
use crate::lending::{Place, ENDS};
use second::call::call;
use second::limits::PIECES;

/// What the stand-in does wrong.
#[derive(Clone, Copy)]
enum Fault {
    Nothing,
    /// A number returned.
    Returned(fn(&mut Answer)),
    /// A byte of a memory, so many bytes from the first one that is lent.
    Touched(usize, isize),
}

struct StandIn {
    fault: Fault,
}

impl Library for StandIn {
    fn call(
        &mut self,
        memories: &mut [Shared; MEMORIES],
        lent: &[Lent; MEMORIES],
        _: bool,
    ) -> Result<Answer, String> {
        let ranges: [Range<usize>; MEMORIES] = std::array::from_fn(|number| {
            lent[number].range(memories[number].length(), WIDTHS[number])
        });
        let lengths = lent.map(|lent| lent.length);
        let outcome = if room::is_too_short(&lengths[FIRST_PIECE..]) {
            room::refused()
        } else {
            call(&memories[TRACE].bytes()[ranges[TRACE].clone()])
        };
        leave_report(
            &outcome,
            &mut memories[REPORT].bytes_mut()[ranges[REPORT].clone()],
        );
        for piece in FIRST_PIECE..MEMORIES {
            let bytes = &mut memories[piece].bytes_mut()[ranges[piece].clone()];
            room::leave_piece(&outcome, bytes, WIDTHS[piece]);
        }
        let mut answer = Answer::of(&outcome);
        match self.fault {
            Fault::Nothing => {}
            Fault::Returned(change) => change(&mut answer),
            Fault::Touched(memory, place) => {
                let byte = ranges[memory].start.wrapping_add_signed(place);
                memories[memory].bytes_mut()[byte] ^= 1;
            }
        }
        Ok(answer)
    }
}

fn lender() -> Lender<StandIn> {
    let fault = Fault::Nothing;
    Lender::new(|_| Ok(StandIn { fault })).expect("it needs no start")
}

/// What a call shows where this is wrong.
fn found(
    lender: &mut Lender<StandIn>,
    case: &Case,
    lending: &Lending,
    fault: Fault,
) -> Option<String> {
    lender.library.fault = fault;
    lender.call(case, lending).err()
}

fn caught(lender: &mut Lender<StandIn>, case: &Case, lending: &Lending, fault: Fault) -> bool {
    found(lender, case, lending, fault).is_some()
}

/// Two races: entries 0 1 3 and 0 1 4.
fn two_races() -> Case {
    Case::new("two races", vec![0x00, 0x06, 0x01, 0x06, 0x06, 0x01])
}

#[test]
fn what_is_right_is_let_pass() {
    let mut lender = lender();
    for number in 0..300 {
        let case = Case::generated(1, number);
        let lending = Lending::any(&mut Random::from_seed(number));
        assert_eq!(lender.call(&case, &lending), Ok(case.outcome.code));
    }
}

#[test]
fn every_number_returned_is_compared() {
    let faults: [fn(&mut Answer); 6] = [
        |answer| answer.code ^= 1,
        |answer| answer.events += 1,
        |answer| answer.offset -= 1,
        |answer| answer.races += 1,
        |answer| answer.visits += 1 << 32,
        |answer| answer.most += 1,
    ];
    let mut lender = lender();
    for fault in faults {
        let (case, lending) = (two_races(), Lending::exact(6));
        assert!(caught(&mut lender, &case, &lending, Fault::Returned(fault)));
        assert!(!caught(&mut lender, &case, &lending, Fault::Nothing));
    }
}

/// In each memory the first byte lent, the last, and the nearest that is not.
fn touches(lending: &Lending, place: Place) -> Vec<Fault> {
    let mut faults = Vec::new();
    let lent = lending.memories(two_races().trace.len());
    for (memory, (lent, width)) in lent.iter().zip(WIDTHS).enumerate() {
        let bytes = (lent.length * width) as isize;
        let not_lent = if place == Place::Before { -1 } else { bytes };
        for byte in [0, bytes - 1, not_lent] {
            faults.push(Fault::Touched(memory, byte));
        }
    }
    faults
}

#[test]
fn every_byte_that_is_lent_or_near_is_compared() {
    let mut lender = lender();
    // Long enough, so that the last bytes are to be left alone; and too short.
    for length in [PIECE + 1, PIECE - 1] {
        for place in ENDS {
            let mut lending = Lending::exact(8);
            (lending.trace, lending.report.place) = (place, place);
            lending.pieces = [Lent { length, place }; PIECES];
            let case = two_races();
            for fault in touches(&lending, place) {
                assert!(caught(&mut lender, &case, &lending, fault));
                assert!(!caught(&mut lender, &case, &lending, Fault::Nothing));
            }
        }
    }
}

#[test]
fn the_last_used_number_and_the_first_not_used_are_told_apart() {
    let mut lender = lender();
    let mut lending = Lending::exact(8);
    lending
        .pieces
        .iter_mut()
        .for_each(|piece| piece.length += 9);
    for (piece, width) in WIDTHS.into_iter().enumerate().skip(FIRST_PIECE) {
        let used = (PIECE * width) as isize;
        for byte in [used - 1, used] {
            let fault = Fault::Touched(piece, byte);
            assert!(caught(&mut lender, &two_races(), &lending, fault));
        }
    }
    // Of the report the two entries are written, and the rest of two is not.
    for byte in [0, 23, 24, 31] {
        let fault = Fault::Touched(REPORT, byte);
        assert!(caught(&mut lender, &two_races(), &lending, fault));
    }
}

#[test]
fn a_difference_shows_the_trace_what_was_lent_and_both_outcomes() {
    const LINKS: usize = FIRST_PIECE + 1;
    let mut lending = Lending::exact(7);
    let shown = |lending: &Lending, byte| {
        let fault = Fault::Touched(LINKS, byte);
        found(&mut lender(), &two_races(), lending, fault).expect("a difference")
    };
    let text = shown(&lending, 16);
    for part in [
        "two races\n  trace    00 06 01 06 06 01\n",
        "report 7 before a protected page",
        "expected Answer { code: 0, events: 6",
        "got      Answer { code: 0, events: 6",
        "links, from number 4 on (1 bytes differ)\n    expected [0, 0,",
        "got      [1, 0,",
    ] {
        assert!(text.contains(part), "{part} is not in {text}");
    }
    lending.pieces[LINKS - FIRST_PIECE].length += 1;
    let text = shown(&lending, -1);
    assert!(text.contains("links, not lent: byte -1 from"), "{text}");
}
