//! Tries the library in every way that `checks` names, and says how often.

mod asked;
mod checks;
mod run;
mod samples;

use asked::{Asked, USAGE};
use run::Run;
use samples::{checked, Samples};
use second::vectors;
use std::process::ExitCode;

const FAILED: u8 = 1;
const WRONG_USE: u8 = 2;

fn main() -> ExitCode {
    let arguments: Vec<String> = std::env::args().skip(1).collect();
    let words: Vec<&str> = arguments.iter().map(String::as_str).collect();
    let Some(asked) = Asked::by(&words) else {
        eprintln!("{USAGE}");
        return ExitCode::from(WRONG_USE);
    };
    match try_all(&asked) {
        Ok(()) => ExitCode::SUCCESS,
        Err(wrong) => {
            eprintln!("{wrong}");
            ExitCode::from(FAILED)
        }
    }
}

/// Goes through all checks, and stops at the first difference.
fn try_all(asked: &Asked) -> Result<(), String> {
    let file = asked.vectors;
    let text = std::fs::read_to_string(file).map_err(|error| format!("{file}: {error}"))?;
    let vectors = vectors::read(&text).map_err(|wrong| format!("{file}: {wrong}"))?;
    let mut run = Run::new(asked.seed, asked.count)?;
    let samples = checked(Samples::of(&vectors, run.seed))?;
    for check in &asked.checks {
        let before = run.calls;
        (check.run)(&mut run, &samples).map_err(|wrong| format!("{}: {wrong}", check.name))?;
        let calls = run.calls - before;
        if calls == 0 {
            return Err(format!("{}: no call was made", check.name));
        }
        println!("{}: {calls} calls", check.name);
    }
    // The codes are spread over all checks.
    if let Some(code) = run.missing_code().filter(|_| !asked.only_named) {
        return Err(format!("no call gave code {code}"));
    }
    println!(
        "{} calls, 0 differences; {}",
        run.calls,
        run.codes.written()
    );
    Ok(())
}
