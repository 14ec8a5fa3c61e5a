//! Calls one after the other in the same room: what one leaves does not matter
//! to the next.

use crate::run::Run;
use crate::samples::Samples;
use fire::case::Case;
use fire::dirt::Dirt;
use fire::lending::Lending;
use second::limits::{PIECE, PIECES};
use second::random::Random;

/// The same room again, with whatever it holds.
fn as_it_is(lending: &Lending) -> Lending {
    Lending {
        dirt: Dirt::AsItIs,
        ..lending.clone()
    }
}

pub fn two_calls(run: &mut Run, _: &Samples) -> Result<(), String> {
    for number in 0..run.count / 20 {
        let lending = Lending::any(&mut Random::of(run.seed, number));
        run.call(&Case::generated(run.seed, number), &lending)?;
        let another = Case::generated(run.seed, run.count + number);
        run.call(&another, &as_it_is(&lending))?;
    }
    Ok(())
}

/// After each code but 0 a trace that is accepted, in the same room.
pub fn after_a_refusal(run: &mut Run, samples: &Samples) -> Result<(), String> {
    let accepted = &samples.of_each_code[0];
    let refused = samples.of_each_code[1..].iter();
    for (number, case) in refused.chain([&samples.too_long]).enumerate() {
        for dirt in Dirt::ALL {
            let mut lending = Lending::exact(31);
            (lending.dirt, lending.seed) = (dirt, number as u64);
            run.call(case, &lending)?;
            run.call(accepted, &as_it_is(&lending))?;
        }
    }
    for piece in 0..PIECES {
        for dirt in Dirt::ALL {
            let mut lending = Lending::exact(31);
            lending.dirt = dirt;
            lending.pieces[piece].length = PIECE - 1;
            run.call(accepted, &lending)?;
            lending.pieces[piece].length = PIECE;
            run.call(accepted, &as_it_is(&lending))?;
        }
    }
    Ok(())
}
