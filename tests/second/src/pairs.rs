//! All pairs: every access is compared with every earlier access to the same
//! location. Nothing is kept and nothing is dropped; no read mark is used.

use crate::access::Access;
use crate::limits::LISTS;
use crate::parallel::Parallel;

/// Demand 2: "some earlier access to the same location is logically parallel
/// with it, shares no lock with it, and at least one of the two writes".
pub fn race(earlier: &Access, later: &Access, known: &Parallel) -> bool {
    let same_location = earlier.location == later.location;
    let shares_no_lock = earlier.locks & later.locks == 0;
    let one_writes = !earlier.reads || !later.reads;
    same_location && shares_no_lock && one_writes && known.parallel(earlier.event, later.event)
}

/// For each access, in order, whether it is to be reported.
pub fn reported(accesses: &[Access], known: &Parallel) -> Vec<bool> {
    let mut at_location: Vec<Vec<Access>> = vec![Vec::new(); LISTS];
    let mut answers = Vec::new();
    for access in accesses {
        let earlier = &mut at_location[access.location];
        answers.push(earlier.iter().any(|one| race(one, access, known)));
        earlier.push(*access);
    }
    answers
}

#[cfg(test)]
mod tests {
    use super::*;
    use crate::serial::follow;

    fn answers(trace: &[u8]) -> Vec<bool> {
        let steps = follow(trace).steps;
        let accesses: Vec<Access> = steps.iter().filter_map(|step| step.access()).collect();
        reported(&accesses, &Parallel::of(&steps))
    }

    #[test]
    fn reads_and_writes() {
        assert_eq!(answers(&[0x00, 0x05, 0x01, 0x05]), [false, false]);
        assert_eq!(answers(&[0x00, 0x05, 0x01, 0x06]), [false, true]);
        assert_eq!(answers(&[0x00, 0x06, 0x01, 0x05]), [false, true]);
        assert_eq!(answers(&[0x00, 0x06, 0x01, 0x0E]), [false, false]);
    }

    #[test]
    fn locks_of_three_writers_pairwise_shared() {
        // Locks 0 and 1, then 1 and 2, then 0 and 2: no race at all.
        let mut trace = vec![0x00, 0x03, 0x0B, 0x06, 0x0C, 0x04, 0x01];
        trace.extend([0x00, 0x0B, 0x13, 0x06, 0x14, 0x0C, 0x01]);
        trace.extend([0x00, 0x03, 0x13, 0x06, 0x14, 0x04, 0x01]);
        assert_eq!(answers(&trace), [false, false, false]);
        // With lock 0 alone the last one shares none with the second.
        trace.truncate(14);
        trace.extend([0x00, 0x03, 0x06, 0x04, 0x01]);
        assert_eq!(answers(&trace), [false, false, true]);
    }

    #[test]
    fn an_access_that_is_no_longer_kept_still_counts() {
        // A reader under a lock, then main writes often: each write is reported.
        let trace = [0x00, 0x03, 0x05, 0x04, 0x01, 0x06, 0x06, 0x03, 0x06];
        assert_eq!(answers(&trace), [false, true, true, false]);
    }
}
