//! How long the report is.

use crate::run::Run;
use crate::samples::Samples;
use fire::case::Case;
use fire::lending::{Lending, ENDS};
use second::generate::long;
use second::limits::NUMBERS_OF_AN_ENTRY;
use second::random::Random;

/// From no number to some more than are written.
pub fn every_length(run: &mut Run, samples: &Samples) -> Result<(), String> {
    const MOST_RACES: usize = 80;
    let several = |case: &&Case| (2..=MOST_RACES).contains(&case.outcome.races);
    for case in samples.short().filter(several) {
        for length in 0..=case.outcome.races * NUMBERS_OF_AN_ENTRY + 4 {
            for place in ENDS {
                let mut lending = Lending::exact(length);
                lending.report.place = place;
                run.call(case, &lending)?;
            }
        }
    }
    Ok(())
}

/// Many races, and a report of some entries with no, one or two numbers left
/// over, up to some entries more than there are.
pub fn many_races(run: &mut Run, _: &Samples) -> Result<(), String> {
    const BYTES: usize = 6_000;
    let trace = long::races(BYTES, &mut Random::of(run.seed, 0));
    let case = Case::new(format!("seed {}, many races", run.seed), trace);
    let all = case.outcome.races;
    for entries in [0, 1, 2, all / 2, all - 1, all, all + 1, all + 2_000] {
        for left_over in 0..NUMBERS_OF_AN_ENTRY {
            for place in ENDS {
                let mut lending = Lending::exact(entries * NUMBERS_OF_AN_ENTRY + left_over);
                lending.report.place = place;
                run.call(&case, &lending)?;
            }
        }
    }
    Ok(())
}
