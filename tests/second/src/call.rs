//! The whole call of 01 on a trace.

use crate::access::Access;
use crate::bags::{Bag, Bags};
use crate::codes::{
    Code, ACCEPTED, IN_NO_BAG, MAIN_NOT_RETURNED, TOO_MANY_ENTRIES, TRACE_TOO_LONG,
};
use crate::kept::{Kept, Visit};
use crate::kinds::RETURN;
use crate::limits::{MOST_BYTES, MOST_ENTRIES, NUMBERS_OF_AN_ENTRY};
use crate::numbers::{EventNumber, MAIN};
use crate::parallel::Parallel;
use crate::serial::{follow, Serial, Step};

/// One entry of the report: "location, earlier event, later event".
pub type RaceEntry = [u32; NUMBERS_OF_AN_ENTRY];

/// "it returns: code; events accepted; offset (first byte not accepted, or the
/// length); races (accesses reported); visits (their sum over accepted
/// accesses); most (the largest number of locks held at one moment)", and the
/// entries that a report with room enough would hold.
#[derive(Clone, PartialEq, Eq, Debug, Default)]
pub struct Outcome {
    pub code: Code,
    pub events: usize,
    pub offset: usize,
    pub races: usize,
    pub visits: usize,
    pub most: u32,
    pub entries: Vec<RaceEntry>,
}

/// The outcome and what it was made from, for those who check it.
pub struct Examination {
    pub outcome: Outcome,
    /// The accepted accesses, with what each found in the list.
    pub accesses: Vec<(Access, Visit)>,
    pub parallel: Parallel,
    pub main_has_returned: bool,
    /// The first pair of events on which bags and definition differ.
    pub difference: Option<(EventNumber, EventNumber)>,
}

pub fn call(trace: &[u8]) -> Outcome {
    go_through(trace, false).outcome
}

pub fn examine(trace: &[u8]) -> Examination {
    go_through(trace, true)
}

/// The accesses are many in a long trace, and kept only for those who ask.
fn go_through(trace: &[u8], keeps_accesses: bool) -> Examination {
    // "1 and 2 before anything is read, and then nothing at all is touched and
    // the other numbers are 0."
    let too_long = trace.len() > MOST_BYTES;
    let serial = follow(if too_long { &[] } else { trace });
    let mut walk = Walk::at_the_start(Parallel::of(&serial.steps), keeps_accesses);
    let mut refused = None;
    for step in &serial.steps {
        // "Codes 3 to 13 refuse one event. That event changes no count, reports
        // nothing, and ends the call".
        if let Err(code) = walk.bring_forward(step) {
            refused = Some((code, step.offset));
            break;
        }
    }
    let (code, offset) = refused.unwrap_or_else(|| walk.at_the_end(&serial));
    let found = &mut walk.found;
    found.outcome.code = if too_long { TRACE_TOO_LONG } else { code };
    found.outcome.offset = offset;
    walk.found
}

/// What is brought forward from event to event.
struct Walk {
    bags: Bags,
    kept: Kept,
    found: Examination,
    keeps_accesses: bool,
}

impl Walk {
    fn at_the_start(parallel: Parallel, keeps_accesses: bool) -> Walk {
        let found = Examination {
            outcome: Outcome::default(),
            accesses: Vec::new(),
            parallel,
            main_has_returned: false,
            difference: None,
        };
        Walk {
            bags: Bags::at_the_start(),
            kept: Kept::empty(),
            found,
            keeps_accesses,
        }
    }

    /// One event that codes 3 to 11 let pass.
    fn bring_forward(&mut self, step: &Step) -> Result<(), Code> {
        if let Some(access) = step.access() {
            self.access(&access)?;
        }
        self.bags.follow(step);
        self.found.main_has_returned |= step.kind == RETURN && step.maker == MAIN;
        let outcome = &mut self.found.outcome;
        outcome.events += 1;
        outcome.most = outcome.most.max(step.held.count_ones());
        Ok(())
    }

    /// One access: codes 12 and 13, then the rules.
    fn access(&mut self, access: &Access) -> Result<(), Code> {
        let (found, bags) = (&mut self.found, &self.bags);
        let list = self.kept.list(access.location);
        if list
            .iter()
            .any(|entry| bags.bag_of(entry.procedure).is_none())
        {
            return Err(IN_NO_BAG);
        }
        let (parallel, difference) = (&found.parallel, &mut found.difference);
        let visit = self.kept.visit(access, |entry| {
            let answer = parallel.parallel(entry.event, access.event);
            let same = answer == (bags.bag_of(entry.procedure) == Some(Bag::Parallel));
            if !same && difference.is_none() {
                *difference = Some((entry.event, access.event));
            }
            answer
        });
        if self.kept.in_all_after(&visit) > MOST_ENTRIES {
            return Err(TOO_MANY_ENTRIES);
        }
        self.kept.bring_forward(access, &visit);
        if let Some(earlier) = visit.earlier {
            let entry = [access.location, earlier.0, access.event.0].map(|number| number as u32);
            found.outcome.races += 1;
            found.outcome.entries.push(entry);
        }
        found.outcome.visits += visit.visits;
        if self.keeps_accesses {
            found.accesses.push((*access, visit));
        }
        Ok(())
    }

    /// Code and offset where no access was refused: a refusal of the serial
    /// run, or else the bytes end between events.
    fn at_the_end(&self, serial: &Serial) -> (Code, usize) {
        let ended = if self.found.main_has_returned {
            ACCEPTED
        } else {
            MAIN_NOT_RETURNED
        };
        (serial.refused.unwrap_or(ended), serial.offset)
    }
}

/// What lent report numbers hold after the call.
///
/// "If there is room for fewer entries than races, the first that fit are
/// written; the count is still full. All other report numbers keep what they
/// had."
pub fn fill_report(outcome: &Outcome, report: &mut [u32]) {
    for (room, entry) in report
        .chunks_exact_mut(NUMBERS_OF_AN_ENTRY)
        .zip(&outcome.entries)
    {
        room.copy_from_slice(entry);
    }
}

#[cfg(test)]
#[path = "call_tests.rs"]
mod tests;
