//! Traces as long as may be, and one byte longer.

use crate::run::Run;
use crate::samples::Samples;
use fire::case::Case;
use fire::dirt::Dirt;
use fire::lending::{Lending, ENDS};
use second::codes::FROM_BYTES;
use second::generate::long;
use second::limits::{MOST_BYTES, NUMBERS_OF_AN_ENTRY};
use second::random::Random;

/// Code 2, with pages open and closed.
pub fn too_long(run: &mut Run, samples: &Samples) -> Result<(), String> {
    for closed in [false, true] {
        for dirt in Dirt::ALL {
            for place in ENDS {
                let mut lending = Lending::exact(31);
                (lending.closed, lending.dirt, lending.trace) = (closed, dirt, place);
                run.call(&samples.too_long, &lending)?;
            }
        }
    }
    Ok(())
}

/// As many events as may be, as many races as may be, and one trace for each
/// code that comes with the last bytes.
pub fn longest(run: &mut Run, _: &Samples) -> Result<(), String> {
    let mut random = Random::of(run.seed, 0);
    let syncs = Case::new("syncs", long::syncs(MOST_BYTES));
    run.call(&syncs, &Lending::any(&mut random))?;
    let name = format!("seed {}, races", run.seed);
    let races = Case::new(name, long::races(MOST_BYTES, &mut random));
    for entries in [races.outcome.races, 1_000_000] {
        let length = entries * NUMBERS_OF_AN_ENTRY + 2;
        run.call(&races, &with_report(length, &mut random))?;
    }
    for code in FROM_BYTES {
        let name = format!("seed {}, ending in code {code}", run.seed);
        let trace = long::ending_in(code, MOST_BYTES, &mut random).expect("a code from bytes");
        let case = Case::new(name, trace);
        if case.outcome.code != code {
            return Err(format!("{}: it ends in {}", case.name, case.outcome.code));
        }
        let length = random.below(3_000_000) as usize;
        run.call(&case, &with_report(length, &mut random))?;
    }
    Ok(())
}

fn with_report(length: usize, random: &mut Random) -> Lending {
    let mut lending = Lending::any(random);
    lending.report.length = length;
    lending
}

pub fn many_visits(run: &mut Run, _: &Samples) -> Result<(), String> {
    let case = Case::new("visits", long::visits(MOST_BYTES));
    if case.outcome.visits <= u32::MAX as usize {
        return Err(format!("there are only {} visits", case.outcome.visits));
    }
    run.call(&case, &Lending::exact(31))
}
