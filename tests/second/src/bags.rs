//! The SP-bags of 002, as lists of procedures. They are used for code 12's
//! question and to be held against the definition of "parallel", and for
//! nothing else. Locks and locations are unknown here.

use crate::kinds::{RETURN, SPAWN, SYNC};
use crate::numbers::{ProcedureNumber, MAIN};
use crate::serial::Step;

#[derive(Clone, Copy, PartialEq, Eq, Debug)]
pub enum Bag {
    /// In the S-bag of an open procedure: what it did precedes.
    Series,
    /// In the P-bag of an open procedure: what it did is parallel.
    Parallel,
}

/// The two bags of one open procedure.
struct Open {
    procedure: ProcedureNumber,
    series: Vec<ProcedureNumber>,
    parallel: Vec<ProcedureNumber>,
}

pub struct Bags {
    /// The open procedures, main first.
    open: Vec<Open>,
    /// For each procedure begun, whose bag it is in and which of the two.
    places: Vec<Option<(ProcedureNumber, Bag)>>,
}

impl Bags {
    pub fn at_the_start() -> Bags {
        let mut bags = Bags {
            open: Vec::new(),
            places: Vec::new(),
        };
        bags.begin(MAIN);
        bags
    }

    /// Brings the bags forward over one event.
    pub fn follow(&mut self, step: &Step) {
        match step.kind {
            SPAWN => self.begin(step.begins.expect("a spawn starts a procedure")),
            SYNC => self.sync(),
            RETURN => self.give_back(),
            _ => {}
        }
    }

    /// Which kind of bag a procedure is in, or none: the question of code 12.
    pub fn bag_of(&self, procedure: ProcedureNumber) -> Option<Bag> {
        self.places
            .get(procedure.0)
            .copied()
            .flatten()
            .map(|(_, bag)| bag)
    }

    /// At a spawn the S-bag of the body holds the body alone, its P-bag nothing.
    fn begin(&mut self, procedure: ProcedureNumber) {
        self.open.push(Open {
            procedure,
            series: vec![procedure],
            parallel: Vec::new(),
        });
        self.places.push(Some((procedure, Bag::Series)));
    }

    /// At a sync the P-bag of the procedure goes into its own S-bag. The bags
    /// of the procedures around it stay as they are.
    fn sync(&mut self) {
        let Some(caller) = self.open.last_mut() else {
            return;
        };
        let moved = std::mem::take(&mut caller.parallel);
        for member in &moved {
            self.places[member.0] = Some((caller.procedure, Bag::Series));
        }
        caller.series.extend(moved);
    }

    /// "A return carries an implied sync": after it the S-bag of the procedure
    /// goes into the P-bag of the one that spawned it. Main's goes nowhere.
    fn give_back(&mut self) {
        self.sync();
        let Some(returned) = self.open.pop() else {
            return;
        };
        for member in &returned.series {
            let place = self
                .open
                .last()
                .map(|spawner| (spawner.procedure, Bag::Parallel));
            self.places[member.0] = place;
        }
        if let Some(spawner) = self.open.last_mut() {
            spawner.parallel.extend(returned.series);
        }
    }
}

#[cfg(test)]
mod tests {
    use super::*;
    use crate::serial::follow;

    fn after(trace: &[u8]) -> Vec<Option<Bag>> {
        let serial = follow(trace);
        assert_eq!(serial.refused, None);
        let mut bags = Bags::at_the_start();
        serial.steps.iter().for_each(|step| bags.follow(step));
        (0..bags.places.len())
            .map(|number| bags.bag_of(ProcedureNumber(number)))
            .collect()
    }

    const S: Option<Bag> = Some(Bag::Series);
    const P: Option<Bag> = Some(Bag::Parallel);

    #[test]
    fn spawn_return_and_sync() {
        assert_eq!(after(&[]), [S]);
        assert_eq!(after(&[0x00]), [S, S]);
        assert_eq!(after(&[0x00, 0x01]), [S, P]);
        assert_eq!(after(&[0x00, 0x01, 0x02]), [S, S]);
    }

    #[test]
    fn the_implied_sync_takes_grandchildren_along() {
        assert_eq!(after(&[0x00, 0x00, 0x01]), [S, S, P]);
        assert_eq!(after(&[0x00, 0x00, 0x01, 0x01]), [S, P, P]);
        assert_eq!(after(&[0x00, 0x00, 0x01, 0x01, 0x02]), [S, S, S]);
    }

    #[test]
    fn a_sync_empties_the_callers_own_bag_only() {
        assert_eq!(after(&[0x00, 0x01, 0x00, 0x00, 0x01, 0x02]), [S, P, S, S]);
    }

    #[test]
    fn after_main_every_procedure_is_in_no_bag() {
        assert_eq!(after(&[0x00, 0x01, 0x01]), [None, None]);
        assert_eq!(Bags::at_the_start().bag_of(ProcedureNumber(1)), None);
    }
}
