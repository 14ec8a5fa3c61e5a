//! How long the pieces of working room are, and what they hold.

use crate::run::Run;
use crate::samples::Samples;
use fire::case::Case;
use fire::dirt::Dirt;
use fire::lending::{Lending, Lent, ENDS};
use second::limits::{PIECE, PIECES};

pub fn dirty(run: &mut Run, samples: &Samples) -> Result<(), String> {
    for case in samples.short().chain(&samples.of_each_code) {
        for dirt in Dirt::ALL {
            for seed in 0..4 {
                let mut lending = Lending::exact(31);
                (lending.dirt, lending.seed) = (dirt, seed);
                run.call(case, &lending)?;
            }
        }
    }
    Ok(())
}

/// Code 1 comes first, whatever the trace, also before code 2.
pub fn short(run: &mut Run, samples: &Samples) -> Result<(), String> {
    for lending in one_too_short() {
        for case in samples.of_each_code.iter().chain([&samples.too_long]) {
            open_and_closed(run, case, &lending)?;
        }
    }
    for lending in some_too_short() {
        open_and_closed(run, &samples.of_each_code[0], &lending)?;
    }
    Ok(())
}

/// With the pages open a touch would show, and with the pages closed it cannot
/// go well, be it for reading only.
fn open_and_closed(run: &mut Run, case: &Case, lending: &Lending) -> Result<(), String> {
    for closed in [false, true] {
        let lending = Lending {
            closed,
            ..lending.clone()
        };
        run.call(case, &lending)?;
    }
    Ok(())
}

/// Each piece alone: one number too short, far too short, and 0 long.
fn one_too_short() -> Vec<Lending> {
    let mut lendings = Vec::new();
    for piece in 0..PIECES {
        for length in [PIECE - 1, PIECE / 2, 1, 0] {
            for place in ENDS {
                let mut lending = Lending::exact(31);
                lending.pieces[piece] = Lent { length, place };
                lendings.push(lending);
            }
        }
    }
    lendings
}

/// Every choice of pieces one number too short: each is a bit of the choice.
fn some_too_short() -> impl Iterator<Item = Lending> {
    (1..1 << PIECES).map(|choice: u32| {
        let mut lending = Lending::exact(31);
        for (number, piece) in lending.pieces.iter_mut().enumerate() {
            if choice >> number & 1 == 1 {
                piece.length = PIECE - 1;
            }
        }
        lending
    })
}

pub fn longer(run: &mut Run, samples: &Samples) -> Result<(), String> {
    for lending in some_longer() {
        for case in &samples.of_each_code {
            run.call(case, &lending)?;
        }
    }
    Ok(())
}

/// Each piece alone longer than what is used, then all of them.
fn some_longer() -> Vec<Lending> {
    let each_alone = (0..PIECES).map(|piece| piece..piece + 1);
    let all = std::iter::once(0..PIECES);
    let mut lendings = Vec::new();
    for chosen in each_alone.chain(all) {
        for more in [1, 2, 3, 1_000, PIECE, 70_000] {
            for place in ENDS {
                let mut lending = Lending::exact(31);
                let length = PIECE + more;
                lending.pieces[chosen.clone()].fill(Lent { length, place });
                lendings.push(lending);
            }
        }
    }
    lendings
}
