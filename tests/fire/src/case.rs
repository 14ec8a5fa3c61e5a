//! A trace, what it is called in a message, and what has to come of it.

use crate::lending::Lending;
use second::call::{call, Outcome};
use second::generate;
use second::room;
use second::vectors::Vector;
use std::borrow::Cow;

pub struct Case {
    /// Where the trace comes from: a long one is found again by it.
    pub name: String,
    pub trace: Vec<u8>,
    /// With room enough; a short piece is none of the trace's business.
    pub outcome: Outcome,
}

impl Case {
    /// A trace that the second program decides.
    pub fn new(name: impl Into<String>, trace: Vec<u8>) -> Case {
        Case {
            name: name.into(),
            outcome: call(&trace),
            trace,
        }
    }

    /// A vector's outcome comes from the file, and from no program.
    pub fn of_vector(vector: &Vector) -> Case {
        Case {
            name: format!("vector {}", vector.name),
            trace: vector.trace.clone(),
            outcome: vector.expected.clone(),
        }
    }

    pub fn generated(seed: u64, number: u64) -> Case {
        let name = format!("seed {seed} number {number}");
        Case::new(name, generate::trace(seed, number))
    }
    /// What has to come of it with what is lent.
    pub fn expected(&self, lending: &Lending) -> Cow<'_, Outcome> {
        if room::is_too_short(&lending.lengths()) {
            Cow::Owned(room::refused())
        } else {
            Cow::Borrowed(&self.outcome)
        }
    }
}
