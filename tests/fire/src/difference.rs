//! What a call gave and left, held against what it had to, and put into words.

use crate::case::Case;
use crate::lending::Lending;
use crate::library::Answer;
use crate::numbers;
use second::call::Outcome;
use second::hexadecimal;
use std::ops::Range;

/// One memory after the call: what it has to hold, and what it holds.
pub struct Memory<'a> {
    pub name: &'a str,
    /// Which bytes are lent; those around them are not to be touched.
    pub lent: Range<usize>,
    pub width: usize,
    pub expected: &'a [u8],
    pub got: &'a [u8],
}

/// What one call returned, and the memories that differ, put into words.
pub struct Difference {
    expected: Answer,
    got: Answer,
    memories: Vec<String>,
}

impl Difference {
    /// Begins with the numbers returned.
    pub fn between(expected: &Outcome, got: Answer) -> Difference {
        Difference {
            expected: Answer::of(expected),
            got,
            memories: Vec::new(),
        }
    }

    /// Holds one memory more against what it has to be.
    pub fn hold(&mut self, memory: &Memory) {
        if memory.expected != memory.got {
            self.memories.push(described(memory));
        }
    }

    pub fn judged(self, case: &Case, lending: &Lending) -> Result<(), String> {
        if self.expected == self.got && self.memories.is_empty() {
            return Ok(());
        }
        let got = format!("{:?}", self.got);
        let mut lines = vec![shown(case, lending, &self.expected, &got)];
        lines.extend(self.memories);
        Err(lines.join("\n"))
    }
}

/// The call, and two lines more: what it had to give and what came of it.
pub fn shown(case: &Case, lending: &Lending, expected: &Answer, got: &str) -> String {
    let tried = tried(case, lending);
    format!("{tried}\n  expected {expected:?}\n  got      {got}")
}

/// The call: its trace, or of a long one only the name, and what was lent.
fn tried(case: &Case, lending: &Lending) -> String {
    const MOST_SHOWN: usize = 2_000;
    let (name, bytes) = (&case.name, case.trace.len());
    let trace = if bytes <= MOST_SHOWN {
        hexadecimal::written(&case.trace)
    } else {
        format!("{bytes} bytes")
    };
    format!("{name}\n  trace    {trace}\n  lent     {lending}")
}

/// The first number of the memory that differs, and some of those after it.
fn described(memory: &Memory) -> String {
    const MOST_SHOWN: usize = 12;
    let Memory {
        name,
        lent,
        width,
        expected,
        got,
    } = memory;
    let differ = |place: &usize| expected[*place] != got[*place];
    let first = (0..got.len()).find(differ).expect("a byte that differs");
    let in_all = (0..got.len()).filter(differ).count();
    if !lent.contains(&first) {
        let (should, is) = (expected[first], got[first]);
        let from = first as isize - lent.start as isize;
        return format!(
            "  {name}, not lent: byte {from} from its first number was {should} and is {is} \
             ({in_all} bytes differ)"
        );
    }
    let number = (first - lent.start) / width;
    let shown = |bytes: &[u8]| -> Vec<u64> {
        let from = &bytes[lent.start + number * width..lent.end];
        let numbers = from.chunks_exact(*width).map(numbers::read);
        numbers.take(MOST_SHOWN).collect()
    };
    let (should, is) = (shown(expected), shown(got));
    format!(
        "  {name}, from number {number} on ({in_all} bytes differ)\n    expected {should:?}\n    \
         got      {is:?}"
    )
}
