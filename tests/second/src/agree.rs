//! The two ways of this program held against each other on random traces: all
//! pairs against the kept lists, the definition against the bags; and the parts
//! of a trace against the whole.

use crate::access::Access;
use crate::call::{call, examine, Examination, Outcome};
use crate::codes::{ACCEPTED, IN_NO_BAG, MAIN_NOT_RETURNED};
use crate::generate::trace;
use crate::hexadecimal;
use crate::limits::LISTS;
use crate::tally::Tally;
use crate::{pairs, parts};
use std::collections::BTreeSet;

/// What came up over all traces.
#[derive(Default)]
pub struct Summary {
    pub traces: u64,
    pub codes: Tally,
    pub races: usize,
    pub visits: usize,
}

/// Checks so many traces of a seed: the summary, or what is wrong.
pub fn run(seed: u64, count: u64) -> Result<Summary, String> {
    if count == 0 {
        return Err(String::from("no trace was asked for"));
    }
    let mut summary = Summary::default();
    for number in 0..count {
        let trace = trace(seed, number);
        let outcome = check(&trace).map_err(|wrong| {
            format!(
                "seed {seed} number {number}: {wrong}\n{}",
                hexadecimal::written(&trace)
            )
        })?;
        summary.traces += 1;
        summary.codes.count(outcome.code);
        summary.races += outcome.races;
        summary.visits += outcome.visits;
    }
    summary.codes.every_code_came_up(summary.traces)?;
    Ok(summary)
}

/// Everything that has to hold of one trace.
pub fn check(trace: &[u8]) -> Result<Outcome, String> {
    let found = examine(trace);
    if let Some((i, j)) = found.difference {
        return Err(format!(
            "bags and definition differ on events {} and {}",
            i.0, j.0
        ));
    }
    if found.outcome.code == IN_NO_BAG {
        return Err(String::from("an entry is in no bag"));
    }
    same_reports(&found)?;
    visits_are_few(&found)?;
    sums_are_true(&found)?;
    accepted_part_stands(trace, &found)?;
    parts::check(&trace[..found.outcome.offset], &found.outcome)?;
    Ok(found.outcome)
}

/// "the accesses reported are those that comparison with every earlier access
/// would report", and "The earlier access named beside it is such a one."
fn same_reports(found: &Examination) -> Result<(), String> {
    let accesses: Vec<Access> = found.accesses.iter().map(|(access, _)| *access).collect();
    let by_all_pairs = pairs::reported(&accesses, &found.parallel);
    for ((access, visit), reported) in found.accesses.iter().zip(by_all_pairs) {
        let event = access.event.0;
        if visit.earlier.is_some() != reported {
            return Err(format!(
                "event {event}: all pairs say {reported}, the lists do not"
            ));
        }
        let Some(earlier) = visit.earlier else {
            continue;
        };
        let named = accesses.iter().find(|one| one.event == earlier);
        if !named.is_some_and(|one| pairs::race(one, access, &found.parallel)) {
            return Err(format!(
                "event {event}: event {} named is no race",
                earlier.0
            ));
        }
    }
    Ok(())
}

/// "the kept entries it is compared with number at most the different lock sets
/// used earlier at that location, reads told apart from writes."
fn visits_are_few(found: &Examination) -> Result<(), String> {
    let mut used: Vec<BTreeSet<(u64, bool)>> = vec![BTreeSet::new(); LISTS];
    for (access, visit) in &found.accesses {
        let sets = &mut used[access.location];
        if visit.visits > sets.len() {
            let (event, visits, sets) = (access.event.0, visit.visits, sets.len());
            return Err(format!(
                "event {event}: {visits} visits but {sets} lock sets"
            ));
        }
        sets.insert((access.locks, access.reads));
    }
    Ok(())
}

/// "The total of these comparisons is reported and is the true sum", and every
/// access reported has its entry, "in order of the later event".
fn sums_are_true(found: &Examination) -> Result<(), String> {
    let outcome = &found.outcome;
    let visits: usize = found.accesses.iter().map(|(_, visit)| visit.visits).sum();
    let named = found.accesses.iter().filter_map(|(access, visit)| {
        let earlier = visit.earlier?.0 as u32;
        Some([access.location as u32, earlier, access.event.0 as u32])
    });
    let entries: Vec<[u32; 3]> = named.collect();
    if visits != outcome.visits || entries != outcome.entries || entries.len() != outcome.races {
        return Err(String::from(
            "visits, races or entries are not what the accesses add up to",
        ));
    }
    Ok(())
}

/// The bytes up to the offset, taken alone, give the same numbers, with code 0
/// if main has returned and 14 if not.
fn accepted_part_stands(trace: &[u8], found: &Examination) -> Result<(), String> {
    let code = if found.main_has_returned {
        ACCEPTED
    } else {
        MAIN_NOT_RETURNED
    };
    let expected = Outcome {
        code,
        ..found.outcome.clone()
    };
    let alone = call(&trace[..found.outcome.offset]);
    if alone != expected {
        return Err(format!("the accepted part alone gives code {}", alone.code));
    }
    Ok(())
}

/// The summary as one line.
pub fn written(summary: &Summary) -> String {
    let Summary {
        traces,
        codes,
        races,
        visits,
    } = summary;
    let codes = codes.written();
    format!("{traces} traces agree; {codes}; races {races}; visits {visits}")
}

#[cfg(test)]
mod tests {
    use super::*;

    #[test]
    fn a_wrong_examination_is_noticed() {
        // Events 1 and 3 race; event 5 follows a sync.
        let trace = [0x00, 0x06, 0x01, 0x06, 0x02, 0x06, 0x01];
        assert!(check(&trace).is_ok());
        let mut silent = examine(&trace);
        silent.accesses[1].1.earlier = None;
        assert!(same_reports(&silent).is_err());
        assert!(sums_are_true(&silent).is_err());
        let mut invented = examine(&trace);
        invented.accesses[2].1.earlier = Some(invented.accesses[1].0.event);
        assert!(same_reports(&invented).is_err());
        let mut long = examine(&trace);
        long.accesses[2].1.visits = 2;
        assert!(visits_are_few(&long).is_err());
        let mut short = examine(&trace);
        short.outcome.most = 1;
        assert!(accepted_part_stands(&trace, &short).is_err());
    }
}
