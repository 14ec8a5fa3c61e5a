//! The library, as far as the comparison has to know it: who makes a call of
//! `include/zobukwami.h`, and what that returns.

use crate::lending::{Lent, MEMORIES};
use crate::shared::Shared;
use second::call::Outcome;

/// "it returns: code; events accepted; offset; races; visits; most".
#[derive(Clone, Copy, PartialEq, Eq, Debug)]
pub struct Answer {
    pub code: u32,
    pub events: u32,
    pub offset: usize,
    pub races: u32,
    pub visits: u64,
    pub most: u32,
}

impl Answer {
    /// The numbers that the second program returns.
    pub fn of(outcome: &Outcome) -> Answer {
        Answer::of_numbers([
            u64::from(outcome.code),
            outcome.events as u64,
            outcome.offset as u64,
            outcome.races as u64,
            outcome.visits as u64,
            u64::from(outcome.most),
        ])
    }

    /// The numbers in their order.
    pub fn of_numbers([code, events, offset, races, visits, most]: [u64; 6]) -> Answer {
        let narrow = |number: u64| u32::try_from(number).expect("a number below 2^32");
        Answer {
            code: narrow(code),
            events: narrow(events),
            offset: usize::try_from(offset).expect("a place in memory"),
            races: narrow(races),
            visits,
            most: narrow(most),
        }
    }
}

/// Who makes the calls.
pub trait Library {
    /// One call, lent a part of each memory: what it returned, or in words how
    /// it ended instead. Where the pages are closed, nothing that is lent may be
    /// touched.
    fn call(
        &mut self,
        memories: &mut [Shared; MEMORIES],
        lent: &[Lent; MEMORIES],
        closed: bool,
    ) -> Result<Answer, String>;
}
