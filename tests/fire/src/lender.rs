//! One call: memory is lent, the library is called, and every number that it
//! returns or may have touched is held against the second program.

use crate::caller::Caller;
use crate::case::Case;
use crate::difference::{shown, Difference, Memory};
use crate::dirt::{self, Dirt};
use crate::lending::{Lending, Lent, FIRST_PIECE, MEMORIES, NAMES, REPORT, TRACE, WIDTHS};
use crate::library::{Answer, Library};
use crate::numbers;
use crate::shared::Shared;
use second::call::{fill_report, Outcome};
use second::codes::Code;
use second::limits::PIECE;
use second::random::Random;
use second::room;
use std::ops::Range;

/// Holds the memory that is lent, so that one call can follow the other in it.
pub struct Lender<L> {
    library: L,
    memories: [Shared; MEMORIES],
}

impl Lender<Caller> {
    /// Lends to the library itself, whose calls are made by a program of its own.
    pub fn to_the_library() -> Result<Lender<Caller>, String> {
        Lender::new(|memories| Caller::started("caller", memories))
    }
}

impl<L: Library> Lender<L> {
    /// The memories are made first, so that who makes the calls can be started
    /// with them.
    pub fn new(
        start: impl FnOnce(&[Shared; MEMORIES]) -> Result<L, String>,
    ) -> Result<Lender<L>, String> {
        let memories = std::array::from_fn(|_| Shared::empty());
        let library = start(&memories)?;
        Ok(Lender { library, memories })
    }

    /// One call: the code that it had to give and gave, or what differs.
    pub fn call(&mut self, case: &Case, lending: &Lending) -> Result<Code, String> {
        let lent = lending.memories(case.trace.len());
        self.prepare(case, lending, &lent);
        let expected = case.expected(lending);
        let after = self.after(&expected, &lent);
        let called = self.library.call(&mut self.memories, &lent, lending.closed);
        let answer =
            called.map_err(|ended| shown(case, lending, &Answer::of(&expected), &ended))?;
        let mut difference = Difference::between(&expected, answer);
        for (number, expected) in after.iter().enumerate() {
            difference.hold(&Memory {
                name: NAMES[number],
                lent: self.range(number, &lent),
                width: WIDTHS[number],
                expected,
                got: self.memories[number].bytes(),
            });
        }
        difference.judged(case, lending).map(|()| expected.code)
    }

    /// Makes room for all that is lent and puts the trace, marks and dirt there.
    fn prepare(&mut self, case: &Case, lending: &Lending, lent: &[Lent; MEMORIES]) {
        let mut random = Random::from_seed(lending.seed);
        for (number, memory) in self.memories.iter_mut().enumerate() {
            memory.make_room(lent[number].length * WIDTHS[number]);
        }
        let trace = self.range(TRACE, lent);
        let bytes = self.memories[TRACE].bytes_mut();
        dirt::mark(bytes, &mut random);
        bytes[trace].copy_from_slice(&case.trace);
        if lending.dirt == Dirt::AsItIs {
            return;
        }
        dirt::mark(self.memories[REPORT].bytes_mut(), &mut random);
        for (piece, width) in WIDTHS.into_iter().enumerate().skip(FIRST_PIECE) {
            let lent = self.range(piece, lent);
            let used = lent.start..lent.end.min(lent.start + PIECE * width);
            let bytes = self.memories[piece].bytes_mut();
            dirt::mark(&mut bytes[..used.start], &mut random);
            dirt::mark(&mut bytes[used.end..], &mut random);
            dirt::put(lending.dirt, piece, &mut bytes[used], &mut random);
        }
    }

    /// What each memory has to hold after the call, around what is lent as well.
    fn after(&self, outcome: &Outcome, lent: &[Lent; MEMORIES]) -> [Vec<u8>; MEMORIES] {
        std::array::from_fn(|number| {
            let mut memory = self.memories[number].bytes().to_vec();
            let lent = &mut memory[self.range(number, lent)];
            match number {
                TRACE => {}
                REPORT => leave_report(outcome, lent),
                piece => room::leave_piece(outcome, lent, WIDTHS[piece]),
            }
            memory
        })
    }

    /// Which bytes of a memory are lent.
    fn range(&self, number: usize, lent: &[Lent; MEMORIES]) -> Range<usize> {
        lent[number].range(self.memories[number].length(), WIDTHS[number])
    }
}

/// What the bytes of the report hold after the call.
fn leave_report(outcome: &Outcome, lent: &mut [u8]) {
    let width = WIDTHS[REPORT];
    let number = |bytes: &[u8]| numbers::read(bytes) as u32;
    let mut report: Vec<u32> = lent.chunks_exact(width).map(number).collect();
    fill_report(outcome, &mut report);
    for (bytes, number) in lent.chunks_exact_mut(width).zip(report) {
        numbers::write(bytes, u64::from(number));
    }
}

#[cfg(test)]
#[path = "lender_tests.rs"]
mod tests;
