//! The definition of "parallel" of 01, searched as it is worded. There are no
//! bags in here, and later events change no answer.

use crate::kinds::{RETURN, SYNC};
use crate::numbers::{EventNumber, ProcedureNumber, MAIN};
use crate::serial::Step;

/// A spawn s made by procedure G, with its matching return r.
struct Spawn {
    maker: ProcedureNumber,
    matching_return: Option<Return>,
}

/// A return r, and how many syncs G itself has made before it.
#[derive(Clone, Copy)]
struct Return {
    event: EventNumber,
    own_ends_before: usize,
}

/// What the search looks things up in.
pub struct Parallel {
    /// The spawns, in order; the one that starts procedure p is number p - 1.
    spawns: Vec<Spawn>,
    /// How many spawns come before each event.
    spawns_before: Vec<usize>,
    /// Each procedure's own syncs and its own return, in order.
    own_ends: Vec<Vec<EventNumber>>,
}

impl Parallel {
    pub fn of(steps: &[Step]) -> Parallel {
        let mut known = Parallel {
            spawns: Vec::new(),
            spawns_before: Vec::new(),
            own_ends: vec![Vec::new()],
        };
        for step in steps {
            known.spawns_before.push(known.spawns.len());
            if step.begins.is_some() {
                known.spawns.push(Spawn {
                    maker: step.maker,
                    matching_return: None,
                });
                known.own_ends.push(Vec::new());
            }
            if step.kind == SYNC || step.kind == RETURN {
                known.own_ends[step.maker.0].push(step.event);
            }
            if step.kind == RETURN && step.maker != MAIN {
                let spawn = &mut known.spawns[step.maker.0 - 1];
                spawn.matching_return = Some(Return {
                    event: step.event,
                    own_ends_before: known.own_ends[spawn.maker.0].len(),
                });
            }
        }
        known
    }

    /// "Let i come before j. They are parallel exactly if some spawn s, made
    /// by procedure G, has its matching return r with s < i < r < j, and
    /// neither a sync made by G itself nor G's own return lies between r and
    /// j. Otherwise i precedes j."
    ///
    /// With s < i < r the body that s starts is open at i. So it is the body
    /// started last before i, or one of those around it: every other has
    /// returned by then.
    pub fn parallel(&self, i: EventNumber, j: EventNumber) -> bool {
        assert!(i < j, "the definition speaks of i before j");
        let started_last = self.spawns[..self.spawns_before[i.0]].last();
        let mut open = std::iter::successors(started_last, |spawn| self.spawn_of(spawn.maker));
        open.any(|spawn| {
            spawn.matching_return.is_some_and(|r| {
                i < r.event && r.event < j && !self.ends_between(spawn.maker, r, j)
            })
        })
    }

    /// The spawn that started a procedure: none for main.
    fn spawn_of(&self, procedure: ProcedureNumber) -> Option<&Spawn> {
        self.spawns.get(procedure.0.checked_sub(1)?)
    }

    /// Whether a sync made by `procedure` itself or its own return lies between.
    fn ends_between(&self, procedure: ProcedureNumber, r: Return, j: EventNumber) -> bool {
        let first_after = self.own_ends[procedure.0].get(r.own_ends_before);
        first_after.is_some_and(|end| *end < j)
    }
}

#[cfg(test)]
mod tests {
    use super::*;
    use crate::generate::trace;
    use crate::kinds::SPAWN;
    use crate::serial::follow;

    fn parallel(trace: &[u8], i: usize, j: usize) -> bool {
        Parallel::of(&follow(trace).steps).parallel(EventNumber(i), EventNumber(j))
    }

    /// The definition with nothing looked up beforehand: every event is tried
    /// as s, every later one as r, and every one between r and j is looked at.
    fn word_for_word(steps: &[Step], i: usize, j: usize) -> bool {
        let matching = |s: usize| {
            let body = steps[s].begins;
            (s + 1..steps.len()).find(|&r| steps[r].kind == RETURN && Some(steps[r].maker) == body)
        };
        (0..i).filter(|&s| steps[s].kind == SPAWN).any(|s| {
            let maker = steps[s].maker;
            matching(s).is_some_and(|r| {
                let end = |k: usize| {
                    steps[k].maker == maker && (steps[k].kind == SYNC || steps[k].kind == RETURN)
                };
                i < r && r < j && !(r + 1..j).any(end)
            })
        })
    }

    #[test]
    fn the_search_is_the_definition() {
        let (mut asked, mut yes) = (0, 0);
        for number in 0..600 {
            let steps = follow(&trace(11, number)).steps;
            if steps.len() > 60 {
                continue;
            }
            let known = Parallel::of(&steps);
            for j in 0..steps.len() {
                for i in 0..j {
                    let answer = known.parallel(EventNumber(i), EventNumber(j));
                    assert_eq!(
                        answer,
                        word_for_word(&steps, i, j),
                        "trace {number}: {i} {j}"
                    );
                    asked += 1;
                    yes += usize::from(answer);
                }
            }
        }
        assert!(yes > 1_000 && asked - yes > 1_000, "{yes} of {asked}");
    }

    #[test]
    fn a_spawned_body_is_parallel_with_what_follows_it() {
        assert!(parallel(&[0x00, 0x06, 0x01, 0x06], 1, 3));
        // Inside the body the spawn has not returned.
        assert!(!parallel(&[0x00, 0x06, 0x06, 0x01], 1, 2));
        // What main did before the spawn precedes the body.
        assert!(!parallel(&[0x06, 0x00, 0x06, 0x01], 0, 2));
    }

    #[test]
    fn siblings_are_parallel_until_a_sync() {
        // Neither is an ancestor of the other, yet a sync lies between.
        assert!(parallel(&[0x00, 0x06, 0x01, 0x00, 0x06, 0x01], 1, 4));
        assert!(!parallel(&[0x00, 0x06, 0x01, 0x02, 0x00, 0x06, 0x01], 1, 5));
    }

    #[test]
    fn a_sync_leaves_the_children_of_the_parents_alone() {
        // Main spawns a writer, then a second body that syncs and writes.
        assert!(parallel(&[0x00, 0x06, 0x01, 0x00, 0x02, 0x06, 0x01], 1, 5));
        // A sync of a body two levels down clears nothing of main's either.
        let trace = [
            0x00, 0x06, 0x01, 0x00, 0x00, 0x02, 0x01, 0x02, 0x06, 0x01, 0x06,
        ];
        assert!(parallel(&trace, 1, 8));
        assert!(parallel(&trace, 1, 10));
    }

    #[test]
    fn a_return_carries_an_implied_sync() {
        // A body writes through a child of its own and returns; main writes.
        let trace = [0x00, 0x00, 0x06, 0x01, 0x01, 0x06, 0x02, 0x06];
        assert!(parallel(&trace, 2, 5));
        assert!(!parallel(&trace, 2, 7));
        // Within the next child of main it is still parallel, through main's spawn.
        assert!(parallel(&[0x00, 0x00, 0x06, 0x01, 0x01, 0x00, 0x06], 2, 6));
        // The child's write precedes what its parent does after the child is synced.
        assert!(!parallel(&[0x00, 0x00, 0x06, 0x01, 0x02, 0x06, 0x01], 2, 5));
    }

    #[test]
    fn only_a_sync_of_the_spawning_procedure_counts() {
        // The sync made by a later child lies between r and j, but is not main's.
        assert!(parallel(&[0x00, 0x06, 0x01, 0x00, 0x02, 0x01, 0x06], 1, 6));
        assert!(!parallel(&[0x00, 0x06, 0x01, 0x00, 0x01, 0x02, 0x06], 1, 6));
    }
}
