//! "For each location a list of entries (event, procedure, lock set) is kept
//! in event order." What is parallel is asked of whoever calls.

use crate::access::Access;
use crate::limits::LISTS;
use crate::numbers::{EventNumber, ProcedureNumber};

#[derive(Clone, Copy, PartialEq, Eq, Debug)]
pub struct Entry {
    pub event: EventNumber,
    pub procedure: ProcedureNumber,
    pub lock_set: u64,
}

/// What an access finds in the list of its location, before anything is done.
#[derive(Clone, PartialEq, Eq, Debug)]
pub struct Visit {
    /// "Visits at e are the length of that list."
    pub visits: usize,
    /// The earlier event named, if the access is to be reported.
    pub earlier: Option<EventNumber>,
    /// For each entry of the list, whether it is to be dropped.
    pub dropped: Vec<bool>,
    pub added: bool,
}

pub struct Kept {
    lists: Vec<Vec<Entry>>,
    in_all: usize,
}

impl Kept {
    /// "The working room starts with 4,096 empty lists."
    pub fn empty() -> Kept {
        Kept {
            lists: vec![Vec::new(); LISTS],
            in_all: 0,
        }
    }

    /// The entries kept for a location.
    pub fn list(&self, location: usize) -> &[Entry] {
        &self.lists[location]
    }

    /// "All three rules look at the list as it stood before e."
    pub fn visit(&self, access: &Access, mut parallel: impl FnMut(&Entry) -> bool) -> Visit {
        let list = self.list(access.location);
        let set = access.lock_set();
        let mut visit = Visit {
            visits: list.len(),
            earlier: None,
            dropped: Vec::new(),
            added: true,
        };
        for entry in list {
            let is_parallel = parallel(entry);
            let races = is_parallel && entry.lock_set & set == 0;
            // "the earlier event named is the lowest-numbered such entry"
            if races {
                let lowest = visit
                    .earlier
                    .map_or(entry.event, |named| named.min(entry.event));
                visit.earlier = Some(lowest);
            }
            // "an entry that precedes e and whose set contains all of H is dropped"
            visit
                .dropped
                .push(!is_parallel && set & !entry.lock_set == 0);
            // "e is added unless some entry is parallel with e and its set lies within H"
            if is_parallel && entry.lock_set & !set == 0 {
                visit.added = false;
            }
        }
        visit
    }

    /// How many entries would be kept in all after the rules.
    pub fn in_all_after(&self, visit: &Visit) -> usize {
        let dropped = visit.dropped.iter().filter(|dropped| **dropped).count();
        self.in_all - dropped + usize::from(visit.added)
    }

    /// Does what the visit found. The access comes after all entries, so the
    /// list stays in event order.
    pub fn bring_forward(&mut self, access: &Access, visit: &Visit) {
        self.in_all = self.in_all_after(visit);
        let list = &mut self.lists[access.location];
        let mut dropped = visit.dropped.iter();
        list.retain(|_| dropped.next() == Some(&false));
        if visit.added {
            let (event, procedure) = (access.event, access.procedure);
            list.push(Entry {
                event,
                procedure,
                lock_set: access.lock_set(),
            });
        }
    }
}

#[cfg(test)]
mod tests {
    use super::*;

    const READS: bool = true;
    const WRITES: bool = false;

    /// An access to location 0 by main.
    fn access(event: usize, locks: u64, reads: bool) -> Access {
        let (event, procedure) = (EventNumber(event), ProcedureNumber(0));
        Access {
            event,
            procedure,
            location: 0,
            locks,
            reads,
        }
    }

    /// The list after the given accesses, each precedes the next.
    fn in_series(accesses: &[Access]) -> Kept {
        let mut kept = Kept::empty();
        for access in accesses {
            let visit = kept.visit(access, |_| false);
            kept.bring_forward(access, &visit);
        }
        kept
    }

    fn events(kept: &Kept) -> Vec<usize> {
        kept.list(0).iter().map(|entry| entry.event.0).collect()
    }

    #[test]
    fn a_preceding_entry_with_a_larger_set_is_dropped() {
        assert_eq!(
            events(&in_series(&[access(0, 3, WRITES), access(1, 1, WRITES)])),
            [1]
        );
        assert_eq!(
            events(&in_series(&[access(0, 1, WRITES), access(1, 1, WRITES)])),
            [1]
        );
        assert_eq!(
            events(&in_series(&[access(0, 1, WRITES), access(1, 3, WRITES)])),
            [0, 1]
        );
        assert_eq!(
            events(&in_series(&[access(0, 1, WRITES), access(1, 2, WRITES)])),
            [0, 1]
        );
    }

    #[test]
    fn the_read_mark_is_part_of_the_set() {
        assert_eq!(
            events(&in_series(&[access(0, 0, READS), access(1, 0, WRITES)])),
            [1]
        );
        assert_eq!(
            events(&in_series(&[access(0, 0, WRITES), access(1, 0, READS)])),
            [0, 1]
        );
        assert_eq!(
            events(&in_series(&[access(0, 1, READS), access(1, 0, READS)])),
            [1]
        );
        let kept = in_series(&[access(0, 0, READS)]);
        assert_eq!(kept.visit(&access(1, 0, READS), |_| true).earlier, None);
        assert_eq!(
            kept.visit(&access(1, 0, WRITES), |_| true).earlier,
            Some(EventNumber(0))
        );
    }

    #[test]
    fn a_parallel_entry_is_never_dropped() {
        let kept = in_series(&[
            access(0, 1, WRITES),
            access(1, 2, WRITES),
            access(2, 6, WRITES),
        ]);
        let visit = kept.visit(&access(3, 0, WRITES), |_| true);
        assert_eq!(visit.dropped, [false, false, false]);
        assert_eq!(
            (visit.visits, visit.earlier, visit.added),
            (3, Some(EventNumber(0)), true)
        );
    }

    #[test]
    fn an_access_with_a_parallel_entry_within_its_set_is_not_added() {
        let kept = in_series(&[access(0, 2, WRITES), access(1, 1, WRITES)]);
        assert!(!kept.visit(&access(2, 3, READS), |_| true).added);
        assert!(!kept.visit(&access(2, 1, WRITES), |_| true).added);
        assert!(kept.visit(&access(2, 4, WRITES), |_| true).added);
        // The entry within the set precedes, so it stands in no one's way.
        assert!(
            kept.visit(&access(2, 1, WRITES), |entry| entry.lock_set == 2)
                .added
        );
    }

    #[test]
    fn the_rules_look_at_the_list_as_it_stood() {
        // Event 2 drops 1 which precedes it, and is kept out by 0 which is parallel.
        let mut kept = in_series(&[access(0, 1, WRITES), access(1, 3, WRITES)]);
        let later = access(2, 1, WRITES);
        let visit = kept.visit(&later, |entry| entry.event == EventNumber(0));
        assert_eq!(
            (visit.visits, &visit.dropped[..], visit.added),
            (2, &[false, true][..], false)
        );
        assert_eq!(kept.in_all_after(&visit), 1);
        kept.bring_forward(&later, &visit);
        assert_eq!(events(&kept), [0]);
    }

    #[test]
    fn the_lowest_racing_entry_is_named() {
        let list = [
            access(0, 1, WRITES),
            access(1, 2, WRITES),
            access(2, 4, WRITES),
        ];
        let kept = in_series(&list);
        let named = |locks, parallel: &dyn Fn(&Entry) -> bool| {
            kept.visit(&access(3, locks, WRITES), parallel)
                .earlier
                .map(|event| event.0)
        };
        assert_eq!(named(0, &|_| true), Some(0));
        assert_eq!(named(1, &|_| true), Some(1));
        assert_eq!(named(1, &|entry| entry.event != EventNumber(1)), Some(2));
        assert_eq!(named(7, &|_| true), None);
    }

    #[test]
    fn locations_have_lists_of_their_own_and_one_count() {
        let mut kept = in_series(&[access(0, 0, WRITES)]);
        let elsewhere = Access {
            location: LISTS - 1,
            ..access(1, 0, WRITES)
        };
        let visit = kept.visit(&elsewhere, |_| true);
        assert_eq!((visit.visits, kept.in_all_after(&visit)), (0, 2));
        kept.bring_forward(&elsewhere, &visit);
        assert_eq!(events(&kept), [0]);
        assert_eq!(kept.list(LISTS - 1).len(), 1);
    }
}
