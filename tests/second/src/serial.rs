//! The serial run: which procedure makes each event and which locks are held,
//! with codes 7 to 11. Neither bags nor kept lists are known here.

use crate::access::Access;
use crate::codes::{Code, AFTER_MAIN, LOCKED_ALREADY, LOCK_HELD, NOT_LOCKED, TOO_MANY_PROCEDURES};
use crate::kinds::{LOCK, RETURN, SPAWN, TABLE, UNLOCK};
use crate::limits::MOST_PROCEDURES;
use crate::numbers::{EventNumber, ProcedureNumber, MAIN};
use crate::reading::{read_event, Event};

/// One lawful event and what is known of it.
#[derive(Clone, Copy, PartialEq, Eq, Debug)]
pub struct Step {
    pub event: EventNumber,
    pub kind: usize,
    pub operand: u32,
    /// The procedure that makes the event: a spawn is made by the procedure
    /// that spawns, a return by the one that returns.
    pub maker: ProcedureNumber,
    /// The procedure that a spawn starts.
    pub begins: Option<ProcedureNumber>,
    /// The locks held after the event, lock n as bit n.
    pub held: u64,
    /// The offset of the first byte of the event.
    pub offset: usize,
}

impl Step {
    pub fn access(&self) -> Option<Access> {
        TABLE[self.kind].access.then_some(Access {
            event: self.event,
            procedure: self.maker,
            location: self.operand as usize,
            // An access changes no lock, so the locks after it are those at it.
            locks: self.held,
            reads: TABLE[self.kind].read_mark,
        })
    }
}

/// The lawful events from the front of a trace, and where and why they end.
pub struct Serial {
    pub steps: Vec<Step>,
    pub offset: usize,
    /// A code of 3 to 11, or none where the bytes end between events.
    pub refused: Option<Code>,
}

/// Reads events until one is refused or the bytes end between events.
///
/// "Tested in this order": codes 3 to 6 are asked of an event before 7 to 11.
pub fn follow(trace: &[u8]) -> Serial {
    let mut state = State::at_the_start();
    let mut steps = Vec::new();
    let mut offset = 0;
    while offset < trace.len() {
        let event = match read_event(&trace[offset..]) {
            Ok(event) => event,
            Err(code) => {
                return Serial {
                    steps,
                    offset,
                    refused: Some(code),
                }
            }
        };
        if let Err(code) = state.lawful(&event) {
            return Serial {
                steps,
                offset,
                refused: Some(code),
            };
        }
        let number = EventNumber(steps.len());
        steps.push(state.bring_forward(&event, number, offset));
        offset += event.bytes;
    }
    Serial {
        steps,
        offset,
        refused: None,
    }
}

struct State {
    /// The open procedures, main first. Empty once main has returned.
    open: Vec<ProcedureNumber>,
    begun: usize,
    held: u64,
}

impl State {
    /// "Main is procedure 0 and runs from the start."
    fn at_the_start() -> State {
        State {
            open: vec![MAIN],
            begun: 1,
            held: 0,
        }
    }

    fn lawful(&self, event: &Event) -> Result<(), Code> {
        let holds = |lock: u32| self.held >> lock & 1 == 1;
        if self.open.is_empty() {
            return Err(AFTER_MAIN);
        }
        if self.held != 0 && !TABLE[event.kind].lawful_with_a_lock_held {
            return Err(LOCK_HELD);
        }
        if event.kind == LOCK && holds(event.operand) {
            return Err(LOCKED_ALREADY);
        }
        if event.kind == UNLOCK && !holds(event.operand) {
            return Err(NOT_LOCKED);
        }
        if event.kind == SPAWN && self.begun >= MOST_PROCEDURES {
            return Err(TOO_MANY_PROCEDURES);
        }
        Ok(())
    }

    /// "A spawn starts the next procedure number at once; its return hands
    /// control back to the procedure that spawned it."
    fn bring_forward(&mut self, event: &Event, number: EventNumber, offset: usize) -> Step {
        let maker = *self
            .open
            .last()
            .expect("a lawful event has an open procedure");
        let mut begins = None;
        match event.kind {
            SPAWN => {
                let body = ProcedureNumber(self.begun);
                begins = Some(body);
                self.open.push(body);
                self.begun += 1;
            }
            RETURN => {
                self.open.pop();
            }
            LOCK => self.held |= 1 << event.operand,
            UNLOCK => self.held &= !(1 << event.operand),
            _ => {}
        }
        let (kind, operand, held) = (event.kind, event.operand, self.held);
        Step {
            event: number,
            kind,
            operand,
            maker,
            begins,
            held,
            offset,
        }
    }
}

#[cfg(test)]
mod tests {
    use super::*;

    fn refused(trace: &[u8]) -> (Option<Code>, usize) {
        let serial = follow(trace);
        (serial.refused, serial.offset)
    }

    #[test]
    fn makers_follow_spawns_and_returns() {
        let serial = follow(&[0x00, 0x00, 0x06, 0x01, 0x02, 0x01, 0x00, 0x01, 0x01]);
        let makers: Vec<usize> = serial.steps.iter().map(|step| step.maker.0).collect();
        assert_eq!(makers, [0, 1, 2, 2, 1, 1, 0, 3, 0]);
        let begun: Vec<usize> = serial
            .steps
            .iter()
            .filter_map(|s| s.begins)
            .map(|p| p.0)
            .collect();
        assert_eq!(begun, [1, 2, 3]);
    }

    #[test]
    fn after_main_the_bytes_are_read_first() {
        assert_eq!(refused(&[0x01, 0x06]), (Some(7), 1));
        assert_eq!(refused(&[0x01, 0x80]), (Some(3), 1));
        assert_eq!(refused(&[0x01, 0x80, 0x00]), (Some(4), 1));
        assert_eq!(refused(&[0x01, 0x07]), (Some(5), 1));
        assert_eq!(refused(&[0x01, 0x08]), (Some(6), 1));
        // An unlock of a lock not held is first of all an event after main's return.
        assert_eq!(refused(&[0x01, 0x04]), (Some(7), 1));
    }

    #[test]
    fn a_held_lock_comes_before_the_number_of_procedures() {
        let mut trace = [0x00, 0x01].repeat(4_095);
        let full = trace.len();
        trace.push(0x00);
        assert_eq!(refused(&trace), (Some(11), full));
        trace[full] = 0x03;
        trace.push(0x00);
        assert_eq!(refused(&trace), (Some(8), full + 1));
    }

    #[test]
    fn exactly_the_last_procedure_may_begin() {
        // Main and 4,095 others: one more is refused.
        assert_eq!(refused(&[0x00, 0x01].repeat(4_095)), (None, 8_190));
        assert_eq!(refused(&[0x00, 0x01].repeat(4_096)), (Some(11), 8_190));
        // All open at once is no other case: begun is what counts.
        assert_eq!(refused(&[0x00].repeat(4_095)), (None, 4_095));
        assert_eq!(refused(&[0x00].repeat(4_096)), (Some(11), 4_095));
    }

    #[test]
    fn each_lock_is_its_own() {
        // Lock 62, lock 0, unlock 62, unlock 62 again.
        assert_eq!(
            refused(&[0xF3, 0x03, 0x03, 0xF4, 0x03, 0xF4, 0x03]),
            (Some(10), 5)
        );
        assert_eq!(refused(&[0xF3, 0x03, 0xF3, 0x03]), (Some(9), 2));
        assert_eq!(follow(&[0xF3, 0x03, 0x03]).steps[1].held, 1 | 1 << 62);
    }
}
