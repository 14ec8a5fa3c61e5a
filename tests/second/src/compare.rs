//! A program held against this one: each trace goes to its standard input, and
//! its standard output has to be what 01 lays down, byte for byte.

use crate::call::Outcome;
use crate::generate::trace;
use crate::hexadecimal;
use crate::print::{outcome, printed_outcome};
use crate::tally::Tally;
use crate::vectors::Vector;
use std::io::Write;
use std::process::{Command, Stdio};
use std::sync::atomic::{AtomicU64, Ordering};
use std::sync::Mutex;

const WORKERS: usize = 2;

/// After so many differences no further trace is started.
const FIRST_FEW: usize = 5;

/// The traces to be run: those of the vectors, then so many of the seed.
pub struct Traces<'a> {
    pub vectors: &'a [Vector],
    pub seed: u64,
    pub count: u64,
}

impl Traces<'_> {
    pub fn in_all(&self) -> u64 {
        self.vectors.len() as u64 + self.count
    }

    /// A vector's outcome comes from the numbers in the file, not from this
    /// program.
    fn at(&self, place: u64) -> Trial {
        if let Some(vector) = self.vectors.get(place as usize) {
            return Trial {
                name: format!("vector {}", vector.name),
                trace: vector.trace.clone(),
                expected: Some(vector.expected.clone()),
            };
        }
        let number = place - self.vectors.len() as u64;
        let trace = trace(self.seed, number);
        Trial {
            name: format!("seed {} number {number}", self.seed),
            expected: outcome(&trace),
            trace,
        }
    }
}

/// One trace to be run, and the outcome to be printed: none if it is too long.
struct Trial {
    name: String,
    trace: Vec<u8>,
    expected: Option<Outcome>,
}

/// What came up over all traces.
#[derive(Default)]
pub struct Summary {
    pub traces: u64,
    pub codes: Tally,
    pub too_long: u64,
    /// The differences, described, each with the place of its trace.
    differences: Vec<(u64, String)>,
}

impl Summary {
    /// The output of one trace more, held against what is expected.
    fn add(&mut self, place: u64, trial: &Trial, got: &[u8]) {
        self.traces += 1;
        match &trial.expected {
            Some(outcome) => self.codes.count(outcome.code),
            None => self.too_long += 1,
        }
        let expected = printed_outcome(&trial.expected);
        if got != expected.as_bytes() {
            let text = described(&trial.name, &trial.trace, &expected, got);
            self.differences.push((place, text));
        }
    }

    /// Nothing differs, and every code came up if enough traces are generated.
    fn judged(mut self, generated: u64) -> Result<Summary, String> {
        if self.differences.is_empty() {
            self.codes.every_code_came_up(generated)?;
            return Ok(self);
        }
        self.differences.sort();
        let texts: Vec<String> = self.differences.into_iter().map(|(_, text)| text).collect();
        Err(format!("{}\nthe outputs differ", texts.join("\n")))
    }
}

/// Runs all traces: what came up, or what is wrong. Words follow the program
/// where it is an emulator.
pub fn run(program: &str, words: &[&str], traces: &Traces) -> Result<Summary, String> {
    let next = AtomicU64::new(0);
    let summary = Mutex::new(Summary::default());
    let locked = || summary.lock().expect("no worker fails");
    let work = || -> Result<(), String> {
        loop {
            let place = next.fetch_add(1, Ordering::Relaxed);
            if place >= traces.in_all() || locked().differences.len() >= FIRST_FEW {
                return Ok(());
            }
            let trial = traces.at(place);
            let got = output(program, words, &trial.trace)?;
            locked().add(place, &trial, &got);
        }
    };
    std::thread::scope(|scope| {
        let workers: Vec<_> = (0..WORKERS).map(|_| scope.spawn(work)).collect();
        workers
            .into_iter()
            .try_for_each(|worker| worker.join().expect("no worker fails"))
    })?;
    let summary = summary.into_inner().expect("no worker fails");
    summary.judged(traces.count)
}

/// The summary as one line.
pub fn written(summary: &Summary) -> String {
    let Summary {
        traces,
        codes,
        too_long,
        ..
    } = summary;
    let codes = codes.written();
    format!("{traces} traces compared, 0 differences; {codes}; too long {too_long}")
}

/// What the program writes on its standard output for one input.
fn output(program: &str, words: &[&str], input: &[u8]) -> Result<Vec<u8>, String> {
    let mut child = Command::new(program)
        .args(words)
        .stdin(Stdio::piped())
        .stdout(Stdio::piped())
        .stderr(Stdio::null())
        .spawn()
        .map_err(|error| format!("`{program}` cannot be started: {error}"))?;
    let mut to_child = child.stdin.take().expect("standard input is piped");
    std::thread::scope(|scope| {
        // A program that has read enough may close its input early: no fault.
        scope.spawn(move || to_child.write_all(input).ok());
        let output = child
            .wait_with_output()
            .map_err(|error| format!("`{program}`: {error}"))?;
        // 01 lays no exit status down, but a program has to end by itself.
        if output.status.code().is_none() {
            let trace = hexadecimal::shown(input);
            return Err(format!("`{program}` was ended by a signal on {trace}"));
        }
        Ok(output.stdout)
    })
}

/// One difference: the trace, and the first line in which the outputs differ.
fn described(name: &str, trace: &[u8], expected: &str, got: &[u8]) -> String {
    let got = String::from_utf8_lossy(got);
    let wanted: Vec<&str> = expected.split_inclusive('\n').collect();
    let given: Vec<&str> = got.split_inclusive('\n').collect();
    let line = (0..wanted.len()).find(|line| wanted.get(*line) != given.get(*line));
    let line = line.unwrap_or(wanted.len());
    let show = |lines: &[&str]| format!("{:?}", lines.get(line).copied().unwrap_or(""));
    format!(
        "{name}: line {} of the output differs\n  trace    {}\n  expected {}\n  got      {}",
        line + 1,
        hexadecimal::shown(trace),
        show(&wanted),
        show(&given)
    )
}

#[cfg(test)]
mod tests {
    use super::*;
    use crate::codes::{Code, FROM_BYTES};
    use crate::tally::ENOUGH_FOR_EVERY_CODE;

    /// A trace that gives the code, or is too long.
    fn trial(code: Option<Code>) -> Trial {
        let expected = code.map(|code| Outcome {
            code,
            ..Outcome::default()
        });
        Trial {
            name: format!("{code:?}"),
            trace: Vec::new(),
            expected,
        }
    }

    /// What came up where the output is right for each of the traces.
    fn all_right(trials: &[Trial]) -> Summary {
        let mut summary = Summary::default();
        for (place, trial) in trials.iter().enumerate() {
            let got = printed_outcome(&trial.expected);
            summary.add(place as u64, trial, got.as_bytes());
        }
        summary
    }

    #[test]
    fn the_first_line_that_differs_is_shown() {
        let text = described("one", &[0x01], "a\nb\n", b"a\nc\n");
        assert!(text.contains("line 2") && text.contains("\"b\\n\"") && text.contains("\"c\\n\""));
        // A line too few, a line too many, and a last line without its end.
        assert!(described("one", &[], "a\nb\n", b"a\n").contains("got      \"\""));
        assert!(described("one", &[], "a\n", b"a\nb\n").contains("expected \"\""));
        assert!(described("one", &[], "a\n", b"a").contains("got      \"a\""));
    }

    #[test]
    fn a_program_that_cannot_be_started_is_an_error() {
        let traces = Traces {
            vectors: &[],
            seed: 1,
            count: 1,
        };
        assert!(run("no-such-program-anywhere", &[], &traces).is_err());
    }

    #[test]
    fn vectors_come_before_the_traces_of_the_seed() {
        let vectors = crate::vectors::read("one | - | 01 | 9 8 7 0 6 5 |").unwrap();
        let traces = Traces {
            vectors: &vectors,
            seed: 3,
            count: 2,
        };
        assert_eq!(traces.in_all(), 3);
        // The expectation is the file's, be it ever so wrong.
        assert_eq!(
            printed_outcome(&traces.at(0).expected),
            "code 9 events 8 offset 7 races 0 visits 6 most 5\n"
        );
        assert_eq!(traces.at(2).trace, trace(3, 1));
    }

    #[test]
    fn every_code_has_to_come_up_among_enough_traces() {
        let mut trials: Vec<Trial> = FROM_BYTES.map(|code| trial(Some(code))).into();
        let judged = |trials: &[Trial], generated| all_right(trials).judged(generated);
        assert!(judged(&trials, ENOUGH_FOR_EVERY_CODE).is_ok());
        // A trace that is too long gives no code.
        trials[0].expected = None;
        assert!(judged(&trials, ENOUGH_FOR_EVERY_CODE).is_err());
        assert!(judged(&trials, ENOUGH_FOR_EVERY_CODE - 1).is_ok());
    }

    #[test]
    fn a_difference_fails_and_the_first_comes_first() {
        let mut summary = all_right(&FROM_BYTES.map(|code| trial(Some(code))));
        summary.add(9, &trial(None), b"");
        summary.add(8, &trial(Some(0)), b"too long\n");
        let wrong = summary.judged(0).err().expect("two outputs differ");
        assert!(wrong.starts_with("Some(0): line 1") && wrong.contains("\nNone: line 1"));
    }

    #[test]
    fn the_summary_says_what_came_up() {
        let summary = all_right(&[Some(14), None, Some(3), Some(14)].map(trial));
        let line = "4 traces compared, 0 differences; codes 3:1 14:2; too long 1";
        assert_eq!(written(&summary), line);
    }
}
