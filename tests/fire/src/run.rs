//! The calls of a run: each is compared and counted.

use fire::caller::Caller;
use fire::case::Case;
use fire::lender::Lender;
use fire::lending::Lending;
use second::codes::{Code, FROM_BYTES, ROOM_TOO_SHORT, TRACE_TOO_LONG};
use second::tally::Tally;

pub struct Run {
    pub seed: u64,
    /// How many traces are generated; other numbers follow from it.
    pub count: u64,
    pub calls: u64,
    pub codes: Tally,
    lender: Lender<Caller>,
}

impl Run {
    pub fn new(seed: u64, count: u64) -> Result<Run, String> {
        Ok(Run {
            seed,
            count,
            calls: 0,
            codes: Tally::default(),
            lender: Lender::to_the_library()?,
        })
    }

    /// One call, held against the second program.
    pub fn call(&mut self, case: &Case, lending: &Lending) -> Result<(), String> {
        let code = self.lender.call(case, lending)?;
        self.calls += 1;
        self.codes.count(code);
        Ok(())
    }

    /// The first code that never came up. Code 12 cannot.
    pub fn missing_code(&self) -> Option<Code> {
        let before_reading = [ROOM_TOO_SHORT, TRACE_TOO_LONG];
        let of = |codes| self.codes.first_missing(codes);
        of(&before_reading).or_else(|| of(&FROM_BYTES))
    }
}
