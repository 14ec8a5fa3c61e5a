//! The program `caller.c`, which makes the calls: it is for the processor that
//! the library is for, shares the memory that is lent, and protects it.

use crate::lending::{Lent, Place, MEMORIES, WIDTHS};
use crate::library::{Answer, Library};
use crate::numbers;
use crate::shared::Shared;
use std::io::{self, Read, Write};
use std::os::unix::process::ExitStatusExt;
use std::path::Path;
use std::process::{Child, Command, ExitStatus, Stdio};

/// Where `make` puts it.
const FOLDER: &str = concat!(env!("CARGO_MANIFEST_DIR"), "/../../target/tests");

/// What runs it.
const RUNNER: &str = concat!(env!("CARGO_MANIFEST_DIR"), "/../../.ci/x86-64");

/// Stands for the place of the first byte where NULL is lent.
const NULL: u64 = u64::MAX;

/// Of how many bytes each number is that goes there or comes back.
const WIDTH: usize = 8;

/// The signals of a fault and of the alarm, with what they mean, by the numbers
/// of Linux.
const SIGNALS: [(i32, &str); 5] = [
    (4, "it ran into an unlawful instruction"),
    (7, "it touched memory that is not there"),
    (8, "it divided by zero"),
    (11, "it touched memory that it was not lent"),
    (14, "it did not come to an end in time"),
];

pub struct Caller {
    child: Child,
}

impl Caller {
    /// Starts the program of this name, with these memories.
    pub fn started(name: &str, memories: &[Shared; MEMORIES]) -> Result<Caller, String> {
        Caller::of(command(name, memories)?)
    }

    /// Starts it, and waits until it says how many memories it takes: then it
    /// runs, and no emulator has failed.
    fn of(mut command: Command) -> Result<Caller, String> {
        let child = command.stdin(Stdio::piped()).stdout(Stdio::piped()).spawn();
        let not_started = |why: String| format!("{command:?} cannot be started: {why}");
        let child = child.map_err(|error| not_started(error.to_string()))?;
        let mut caller = Caller { child };
        match caller.take() {
            Ok([memories]) if memories == MEMORIES as u64 => Ok(caller),
            _ => Err(not_started(caller.end().to_string())),
        }
    }

    /// Asks for one call, and takes the answer.
    fn exchange(&mut self, request: &[u64]) -> io::Result<Answer> {
        let bytes = request.iter().flat_map(|number| number.to_le_bytes());
        let bytes: Vec<u8> = bytes.collect();
        let requests = self.child.stdin.as_mut().expect("it has not ended");
        requests.write_all(&bytes)?;
        self.take().map(Answer::of_numbers)
    }

    /// Takes so many numbers.
    fn take<const COUNT: usize>(&mut self) -> io::Result<[u64; COUNT]> {
        let mut bytes = vec![0; COUNT * WIDTH];
        let answers = self.child.stdout.as_mut().expect("it has not ended");
        answers.read_exact(&mut bytes)?;
        let number = |place| numbers::read(&bytes[place * WIDTH..][..WIDTH]);
        Ok(std::array::from_fn(number))
    }

    /// Lets the program know that no request follows, and waits for its end.
    fn end(&mut self) -> ExitStatus {
        self.child.wait().expect("a program that was started")
    }
}

impl Library for Caller {
    fn call(
        &mut self,
        memories: &mut [Shared; MEMORIES],
        lent: &[Lent; MEMORIES],
        closed: bool,
    ) -> Result<Answer, String> {
        let request = request(memories, lent, closed);
        self.exchange(&request).map_err(|_| described(self.end()))
    }
}

impl Drop for Caller {
    fn drop(&mut self) {
        self.end();
    }
}

/// How the program is started, whatever processor this machine has.
fn command(name: &str, memories: &[Shared; MEMORIES]) -> Result<Command, String> {
    let path = Path::new(FOLDER).join(name);
    if !path.is_file() {
        let path = path.display();
        return Err(format!(
            "there is no {path}: `make target/tests/{name}` builds it"
        ));
    }
    let descriptors = memories.iter().map(Shared::descriptor);
    let mut command = Command::new(RUNNER);
    command
        .arg(path)
        .args(descriptors.map(|number| number.to_string()));
    Ok(command)
}

/// Of each memory how many bytes it has, which is the first one lent, and the
/// length that the call is told; then whether the pages are closed.
fn request(memories: &[Shared; MEMORIES], lent: &[Lent; MEMORIES], closed: bool) -> Vec<u64> {
    let mut numbers = Vec::new();
    for ((memory, lent), width) in memories.iter().zip(lent).zip(WIDTHS) {
        let bytes = memory.length();
        let first = match lent.place {
            Place::Null => NULL,
            Place::After | Place::Before => lent.range(bytes, width).start as u64,
        };
        numbers.extend([bytes as u64, first, lent.length as u64]);
    }
    numbers.push(u64::from(closed));
    numbers
}

/// How a call ended that gave no answer.
fn described(status: ExitStatus) -> String {
    let Some(number) = status.signal() else {
        return format!("{status}: it ended the program");
    };
    let known = SIGNALS.iter().find(|(known, _)| *known == number);
    let meaning = known.map_or("it was ended", |(_, meaning)| meaning);
    format!("signal {number}: {meaning}")
}

#[cfg(test)]
#[path = "caller_tests.rs"]
mod tests;
