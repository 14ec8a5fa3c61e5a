//! The file of small traces with known results, and the running of it.
//!
//! A line is: name | mark | bytes | six numbers | race entries. What is empty
//! or begins with `#` is passed over. The mark is `*` for a starred trace of
//! 01 and `-` for any other.

use crate::call::{call, Outcome, RaceEntry};
use crate::hexadecimal;
use crate::limits::NUMBERS_OF_AN_ENTRY;

#[derive(Clone, PartialEq, Eq, Debug)]
pub struct Vector {
    pub name: String,
    pub starred: bool,
    pub trace: Vec<u8>,
    pub expected: Outcome,
}

/// All vectors of a text, or what is wrong with it and in which line.
pub fn read(text: &str) -> Result<Vec<Vector>, String> {
    let mut vectors = Vec::new();
    for (place, line) in text.lines().enumerate() {
        let line = line.trim();
        if line.is_empty() || line.starts_with('#') {
            continue;
        }
        let vector = read_line(line).map_err(|wrong| format!("line {}: {wrong}", place + 1))?;
        vectors.push(vector);
    }
    if vectors.is_empty() {
        return Err(String::from("there is no vector"));
    }
    Ok(vectors)
}

fn read_line(line: &str) -> Result<Vector, String> {
    let fields: Vec<&str> = line.split('|').map(str::trim).collect();
    let [name, mark, bytes, six, entries] = fields[..] else {
        return Err(format!("five fields are wanted, not {}", fields.len()));
    };
    let starred = match mark {
        "*" => true,
        "-" => false,
        _ => return Err(format!("`{mark}` is neither `*` nor `-`")),
    };
    let trace = hexadecimal::read(bytes)?;
    let expected = expected(&numbers(six)?, &numbers(entries)?)?;
    Ok(Vector {
        name: name.to_string(),
        starred,
        trace,
        expected,
    })
}

fn numbers(text: &str) -> Result<Vec<u32>, String> {
    let number = |word: &str| {
        word.parse()
            .map_err(|_| format!("`{word}` is not a number"))
    };
    text.split_whitespace().map(number).collect()
}

fn expected(six: &[u32], entries: &[u32]) -> Result<Outcome, String> {
    let &[code, events, offset, races, visits, most] = six else {
        return Err(format!("six numbers are wanted, not {}", six.len()));
    };
    if entries.len() != races as usize * NUMBERS_OF_AN_ENTRY {
        return Err(format!(
            "{races} races do not have {} numbers",
            entries.len()
        ));
    }
    let entry = |numbers: &[u32]| -> RaceEntry { numbers.try_into().expect("three numbers") };
    Ok(Outcome {
        code,
        events: events as usize,
        offset: offset as usize,
        races: races as usize,
        visits: visits as usize,
        most,
        entries: entries
            .chunks_exact(NUMBERS_OF_AN_ENTRY)
            .map(entry)
            .collect(),
    })
}

/// The six numbers and the entries, as a line of the file has them.
pub fn written(outcome: &Outcome) -> String {
    let Outcome {
        code,
        events,
        offset,
        races,
        visits,
        most,
        entries,
    } = outcome;
    let numbers: Vec<String> = entries.concat().iter().map(u32::to_string).collect();
    format!(
        "{code} {events} {offset} {races} {visits} {most} | {}",
        numbers.join(" ")
    )
}

/// Runs all vectors: how many passed, and a line for each that failed.
pub fn run(vectors: &[Vector]) -> (usize, Vec<String>) {
    let mut failures = Vec::new();
    for vector in vectors {
        let got = call(&vector.trace);
        if got != vector.expected {
            let (expected, got) = (written(&vector.expected), written(&got));
            failures.push(format!("{}: expected {expected}, got {got}", vector.name));
        }
    }
    (vectors.len() - failures.len(), failures)
}

#[cfg(test)]
mod tests {
    use super::*;

    const RACE: &str = "race | * | 00 06 01 06 01 | 0 5 5 1 1 0 | 0 1 3";

    #[test]
    fn a_line_is_read_and_run() {
        let vectors = read(&format!("# why\n\n{RACE}\nempty | - | | 14 0 0 0 0 0 |\n")).unwrap();
        assert_eq!(vectors.len(), 2);
        assert!(vectors[0].starred && !vectors[1].starred);
        assert_eq!(written(&vectors[0].expected), "0 5 5 1 1 0 | 0 1 3");
        assert_eq!(run(&vectors), (2, vec![]));
    }

    #[test]
    fn a_wrong_expectation_fails() {
        let (passed, failures) = run(&read(&RACE.replace("0 1 3", "0 1 4")).unwrap());
        assert_eq!((passed, failures.len()), (0, 1));
        assert!(failures[0].starts_with("race: expected"), "{}", failures[0]);
    }

    #[test]
    fn a_file_that_says_nothing_is_refused() {
        assert!(read("# only a comment\n").is_err());
        assert!(read(&RACE.replace("| 0 1 3", "|")).is_err());
        assert!(read(&RACE.replace("| *", "| x")).is_err());
        assert!(read(&RACE.replace("0 5 5", "0 5")).is_err());
        assert!(read(&RACE.replace("00 06", "0 6")).is_err());
        assert!(read(&RACE.replace("| 0 1 3", "")).is_err());
    }
}
