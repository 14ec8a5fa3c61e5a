//! Where lent memory lies.

use crate::run::Run;
use crate::samples::Samples;
use fire::case::Case;
use fire::lending::{Lending, Lent, Place, ENDS, FIRST_PIECE, MEMORIES, REPORT, TRACE};
use second::limits::{NUMBERS_OF_AN_ENTRY, PIECE};

/// Each of the nine memories at each end of its pages.
pub fn flush(run: &mut Run, samples: &Samples) -> Result<(), String> {
    for case in samples.short() {
        let mut lending = Lending::exact(case.outcome.races * NUMBERS_OF_AN_ENTRY + 1);
        // A piece of just the right size is flush with protected pages at both ends.
        for more in [0, 1, 600] {
            lending
                .pieces
                .iter_mut()
                .for_each(|piece| piece.length = PIECE + more);
            for lending in at_each_end(&lending) {
                run.call(case, &lending)?;
            }
        }
    }
    Ok(())
}

/// All memories at one end, then one of them after the other at the other.
fn at_each_end(lending: &Lending) -> Vec<Lending> {
    let mut lendings = Vec::new();
    for [end, other_end] in [ENDS, [ENDS[1], ENDS[0]]] {
        let mut all_at_one = lending.clone();
        (0..MEMORIES).for_each(|memory| all_at_one.lay(memory, end));
        for memory in 0..MEMORIES {
            let mut but_one = all_at_one.clone();
            but_one.lay(memory, other_end);
            lendings.push(but_one);
        }
        lendings.push(all_at_one);
    }
    lendings
}

/// Every choice of memories that are NULL: code 1 if a piece is among them, and
/// else code 14 if the trace is.
pub fn null(run: &mut Run, samples: &Samples) -> Result<(), String> {
    let empty = Case::new("no bytes", Vec::new());
    for case in samples.of_each_code.iter().step_by(4) {
        for choice in 0..1 << MEMORIES {
            let lending = with_null(choice);
            let trace_is_null = lending.trace == Place::Null;
            run.call(if trace_is_null { &empty } else { case }, &lending)?;
        }
    }
    Ok(())
}

/// The memories chosen are NULL: each is a bit of the choice.
fn with_null(choice: u32) -> Lending {
    let chosen = |memory: usize| choice >> memory & 1 == 1;
    let mut lending = Lending::exact(30);
    if chosen(TRACE) {
        lending.trace = Place::Null;
    }
    if chosen(REPORT) {
        lending.report = Lent::NULL;
    }
    for (piece, lent) in lending.pieces.iter_mut().enumerate() {
        if chosen(FIRST_PIECE + piece) {
            *lent = Lent::NULL;
        }
    }
    lending
}
