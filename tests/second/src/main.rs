//! The sub-commands of the second program.

use second::{agree, compare, generate, print, vectors};
use std::io::{Read, Write};
use std::process::ExitCode;

const USAGE: &str = "usage:
  second print                                  a trace on standard input
  second vectors FILE
  second generate --seed S --number N
  second agree --seed S --count N
  second compare --vectors FILE --seed S --count N PROGRAM [WORDS]";

const FAILED: u8 = 1;
const WRONG_USE: u8 = 2;

fn main() -> ExitCode {
    let arguments: Vec<String> = std::env::args().skip(1).collect();
    let words: Vec<&str> = arguments.iter().map(String::as_str).collect();
    let done = match words[..] {
        ["print"] => print_input(),
        ["vectors", file] => run_vectors(file),
        ["generate", "--seed", seed, "--number", number] => with_numbers(seed, number, write_trace),
        ["agree", "--seed", seed, "--count", count] => with_numbers(seed, count, run_agree),
        ["compare", "--vectors", file, "--seed", seed, "--count", count, ref command @ ..] => {
            with_numbers(seed, count, |seed, count| {
                run_compare(command, file, seed, count)
            })
        }
        _ => None,
    };
    match done {
        Some(Ok(())) => ExitCode::SUCCESS,
        Some(Err(wrong)) => {
            eprintln!("{wrong}");
            ExitCode::from(FAILED)
        }
        None => {
            eprintln!("{USAGE}");
            ExitCode::from(WRONG_USE)
        }
    }
}

/// Nothing for wrong use, else whether all went well.
type Done = Option<Result<(), String>>;

fn with_numbers(first: &str, second: &str, run: impl FnOnce(u64, u64) -> Done) -> Done {
    run(first.parse().ok()?, second.parse().ok()?)
}

fn print_input() -> Done {
    let mut input = Vec::new();
    let read = std::io::stdin().read_to_end(&mut input);
    Some(
        read.map_err(|error| error.to_string())
            .and_then(|_| write_bytes(print::printed(&input).as_bytes())),
    )
}

fn write_trace(seed: u64, number: u64) -> Done {
    Some(write_bytes(&generate::trace(seed, number)))
}

fn write_bytes(bytes: &[u8]) -> Result<(), String> {
    std::io::stdout()
        .write_all(bytes)
        .map_err(|error| error.to_string())
}

fn read_vectors(file: &str) -> Result<Vec<vectors::Vector>, String> {
    let text = std::fs::read_to_string(file).map_err(|error| format!("{file}: {error}"))?;
    vectors::read(&text).map_err(|wrong| format!("{file}: {wrong}"))
}

fn run_vectors(file: &str) -> Done {
    Some(read_vectors(file).and_then(|all| {
        let (passed, failures) = vectors::run(&all);
        let starred = all.iter().filter(|vector| vector.starred).count();
        println!(
            "{passed} of {} vectors passed ({starred} in the file are starred)",
            all.len()
        );
        if failures.is_empty() {
            return Ok(());
        }
        Err(failures.join("\n"))
    }))
}

fn run_agree(seed: u64, count: u64) -> Done {
    Some(agree::run(seed, count).map(|summary| println!("{}", agree::written(&summary))))
}

fn run_compare(command: &[&str], file: &str, seed: u64, count: u64) -> Done {
    let (program, words) = command.split_first()?;
    Some(read_vectors(file).and_then(|all| {
        let traces = compare::Traces {
            vectors: &all,
            seed,
            count,
        };
        let summary = compare::run(program, words, &traces)?;
        println!("{}", compare::written(&summary));
        Ok(())
    }))
}
