//! Traces of every kind, each with a lending of its own.

use crate::run::Run;
use crate::samples::Samples;
use fire::case::Case;
use fire::lending::{Lending, ENDS};
use second::generate;
use second::random::Random;

/// With the outcomes that 01 gives, not the second program's.
pub fn vectors(run: &mut Run, samples: &Samples) -> Result<(), String> {
    for case in &samples.vectors {
        for number in 0..20 {
            let lending = Lending::any(&mut Random::of(run.seed, number));
            run.call(case, &lending)?;
        }
    }
    Ok(())
}

/// Right before a protected page, so that a byte too many cannot be read; those
/// of fewer than two bytes also after one, with marks behind them.
pub fn every_short_one(run: &mut Run, _: &Samples) -> Result<(), String> {
    let of_two = (0..=u16::MAX).map(|both| both.to_le_bytes().to_vec());
    let of_one = (0..=u8::MAX).map(|byte| vec![byte]);
    for trace in of_two.chain(of_one).chain([Vec::new()]) {
        let case = Case::new("a short trace", trace);
        let ends = if case.trace.len() == 2 {
            &ENDS[1..]
        } else {
            &ENDS
        };
        for place in ends {
            let mut lending = Lending::exact(3);
            lending.trace = *place;
            run.call(&case, &lending)?;
        }
    }
    Ok(())
}

/// One call for each number: a trace made from it, and any lending.
fn for_each(
    run: &mut Run,
    numbers: u64,
    what: &str,
    make: impl Fn(u64, &mut Random) -> Vec<u8>,
) -> Result<(), String> {
    let seed = run.seed;
    for number in 0..numbers {
        let mut random = Random::of(seed, number);
        let trace = make(number, &mut random);
        let case = Case::new(format!("seed {seed} number {number}, {what}"), trace);
        run.call(&case, &Lending::any(&mut random))?;
    }
    Ok(())
}

pub fn generated(run: &mut Run, _: &Samples) -> Result<(), String> {
    let seed = run.seed;
    for_each(run, run.count, "generated", |number, _| {
        generate::trace(seed, number)
    })
}

/// With all bits random most traces end at once, so often some are left out.
pub fn random_bytes(run: &mut Run, _: &Samples) -> Result<(), String> {
    for_each(run, run.count / 2, "random bytes", |_, random| {
        let length = random.below(100);
        let bits = random.pick(&[0xFF, 0x87, 0x7F, 0x0F, 0x07]);
        let mut byte = || random.next_number() as u8 & bits;
        (0..length).map(|_| byte()).collect()
    })
}

pub fn bit_flips(run: &mut Run, _: &Samples) -> Result<(), String> {
    let seed = run.seed;
    for_each(run, run.count / 2, "bits flipped", |number, random| {
        let mut trace = generate::trace(seed, number);
        for _ in 0..random.between(1, 3) {
            if let Some(last) = trace.len().checked_sub(1) {
                let place = random.between(0, last as u32) as usize;
                trace[place] ^= 1 << random.below(8);
            }
        }
        trace
    })
}

/// Every length of a short trace, and some of a long one.
pub fn truncations(run: &mut Run, _: &Samples) -> Result<(), String> {
    const SHORT: usize = 100;
    for number in 0..run.count / 40 {
        let mut random = Random::of(run.seed, number);
        let whole = generate::trace(run.seed, number);
        let all = whole.len();
        let lengths: Vec<usize> = if all <= SHORT {
            (0..=all).collect()
        } else {
            (0..5).map(|_| random.below(all as u32) as usize).collect()
        };
        for length in lengths {
            let name = format!("seed {} number {number}, cut to {length} bytes", run.seed);
            let case = Case::new(name, whole[..length].to_vec());
            run.call(&case, &Lending::any(&mut random))?;
        }
    }
    Ok(())
}
