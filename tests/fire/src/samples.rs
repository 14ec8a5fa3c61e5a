//! The traces that are tried with many lendings.

use fire::case::Case;
use second::codes::{FROM_BYTES, TRACE_TOO_LONG};
use second::generate::long;
use second::limits::MOST_BYTES;
use second::random::Random;
use second::vectors::Vector;

pub struct Samples {
    /// The traces of 01, with the outcomes of 01.
    pub vectors: Vec<Case>,
    /// A trace for each code that bytes can bring about, with much before it.
    pub of_each_code: Vec<Case>,
    /// Generated traces that are not long.
    pub generated: Vec<Case>,
    /// One byte longer than may be.
    pub too_long: Case,
}

impl Samples {
    pub fn of(vectors: &[Vector], seed: u64) -> Samples {
        const BYTES: usize = 36_000;
        let ending = |code| {
            let random = &mut Random::of(seed, u64::from(code));
            let trace = long::ending_in(code, BYTES, random).expect("a code from bytes");
            Case::new(format!("seed {seed}, ending in code {code}"), trace)
        };
        let generated = (0..80).map(|number| Case::generated(seed, number));
        let mut too_long = long::syncs(MOST_BYTES);
        too_long.push(0x01);
        Samples {
            vectors: vectors.iter().map(Case::of_vector).collect(),
            of_each_code: FROM_BYTES.map(ending).into(),
            generated: generated.filter(|case| case.trace.len() < 3_000).collect(),
            too_long: Case::new("syncs, and one byte too many", too_long),
        }
    }

    /// The vectors and the generated ones.
    pub fn short(&self) -> impl Iterator<Item = &Case> {
        self.vectors.iter().chain(&self.generated)
    }
}

/// The samples are what they are called.
pub fn checked(samples: Samples) -> Result<Samples, String> {
    for (case, code) in samples.of_each_code.iter().zip(FROM_BYTES) {
        if case.outcome.code != code {
            return Err(format!("{}: it ends in {}", case.name, case.outcome.code));
        }
    }
    if samples.too_long.outcome.code != TRACE_TOO_LONG {
        return Err(format!("{} is not too long", samples.too_long.name));
    }
    Ok(samples)
}
