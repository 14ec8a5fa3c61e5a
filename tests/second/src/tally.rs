//! How often each code came up, and whether every code did.

use crate::codes::{Code, FROM_BYTES};
use std::collections::BTreeMap;

/// From so many generated traces on every code has to have come up.
pub const ENOUGH_FOR_EVERY_CODE: u64 = 20_000;

#[derive(Default)]
pub struct Tally {
    codes: BTreeMap<Code, u64>,
}

impl Tally {
    /// One trace more gave the code.
    pub fn count(&mut self, code: Code) {
        *self.codes.entry(code).or_default() += 1;
    }

    /// The first of these codes that never came up.
    pub fn first_missing(&self, codes: &[Code]) -> Option<Code> {
        let came_up = |code: &Code| self.codes.contains_key(code);
        codes.iter().copied().find(|code| !came_up(code))
    }

    /// So that a family cannot be lost in silence.
    pub fn every_code_came_up(&self, generated: u64) -> Result<(), String> {
        match self.first_missing(&FROM_BYTES) {
            Some(code) if generated >= ENOUGH_FOR_EVERY_CODE => Err(format!(
                "no trace gave code {code}, though {generated} were generated"
            )),
            _ => Ok(()),
        }
    }

    /// Each code with how often it came up, as part of a line.
    pub fn written(&self) -> String {
        let code = |(code, traces): (&Code, &u64)| format!("{code}:{traces}");
        let codes: Vec<String> = self.codes.iter().map(code).collect();
        format!("codes {}", codes.join(" "))
    }
}

#[cfg(test)]
mod tests {
    use super::*;

    /// Each of the codes once.
    fn tally_of(codes: impl Iterator<Item = Code>) -> Tally {
        let mut tally = Tally::default();
        codes.for_each(|code| tally.count(code));
        tally
    }

    #[test]
    fn a_missing_code_is_noticed_from_enough_traces_on() {
        let all = tally_of(FROM_BYTES.into_iter());
        assert!(all.every_code_came_up(ENOUGH_FOR_EVERY_CODE).is_ok());
        for missing in FROM_BYTES {
            let others = FROM_BYTES.into_iter().filter(|code| *code != missing);
            let tally = tally_of(others);
            let wrong = tally.every_code_came_up(ENOUGH_FOR_EVERY_CODE).unwrap_err();
            assert!(wrong.contains(&format!("code {missing},")), "{wrong}");
            assert!(tally.every_code_came_up(ENOUGH_FOR_EVERY_CODE - 1).is_ok());
        }
    }

    #[test]
    fn codes_are_written_in_order_with_their_counts() {
        let tally = tally_of([14, 3, 14].into_iter());
        assert_eq!(tally.written(), "codes 3:1 14:2");
    }
}
