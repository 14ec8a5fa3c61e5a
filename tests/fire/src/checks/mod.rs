//! Everything that is tried, by name.

mod longest;
mod pieces;
mod places;
mod reports;
mod rows;
mod traces;

use crate::run::Run;
use crate::samples::Samples;

pub struct Check {
    pub name: &'static str,
    pub run: fn(&mut Run, &Samples) -> Result<(), String>,
}

const fn check(name: &'static str, run: fn(&mut Run, &Samples) -> Result<(), String>) -> Check {
    Check { name, run }
}

pub const CHECKS: [Check; 17] = [
    check("the vectors of 01", traces::vectors),
    check("flush with protected pages", places::flush),
    check("NULL with length 0", places::null),
    check("dirty room", pieces::dirty),
    check("pieces too short", pieces::short),
    check("pieces longer than used", pieces::longer),
    check("reports of every length", reports::every_length),
    check("reports for many races", reports::many_races),
    check("two calls in the same room", rows::two_calls),
    check("the same room after a refusal", rows::after_a_refusal),
    check("every trace of up to two bytes", traces::every_short_one),
    check("random bytes", traces::random_bytes),
    check("generated traces", traces::generated),
    check("bit flips", traces::bit_flips),
    check("truncations", traces::truncations),
    check("traces one byte too long", longest::too_long),
    check("traces of 16,777,216 bytes", longest::longest),
];

/// Takes a minute alone, so it has to be asked for.
pub const MANY_VISITS: Check = check("more visits than 32 bits count", longest::many_visits);
