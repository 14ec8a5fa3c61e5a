//! Unit tests of the program that makes the calls: `wrong.c` stands in the
//! library's place there and does all as it should, or one thing wrong.

use super::*;
use crate::case::Case;
use crate::dirt::Dirt;
use crate::lender::Lender;
use crate::lending::{Lending, ENDS, FIRST_PIECE, NAMES, REPORT, TRACE};
use crate::shared::page;
use second::call::Outcome;
use second::limits::{PIECE, PIECES};

/// What `wrong.c` does, by the numbers that it has there.
#[derive(Clone, Copy, PartialEq, Eq, Debug)]
enum Wrong {
    Nothing,
    ReadBefore,
    ReadFirst,
    ReadBehind,
    WriteBefore,
    WriteFirst,
    WriteBehind,
    ReturnAnother,
    GoWild,
    Loop,
    Exit,
    Raise,
}

const TOUCHED: &str = "signal 11: it touched memory that it was not lent";

/// Starts the program; what it or an emulator says of a fault is not for here.
fn wrong_caller(memories: &[Shared; MEMORIES]) -> Result<Caller, String> {
    let mut command = command("wrong_caller", memories)?;
    command.stderr(Stdio::null());
    Caller::of(command)
}

fn no_memories() -> [Shared; MEMORIES] {
    std::array::from_fn(|_| Shared::empty())
}

fn lender() -> Lender<Caller> {
    Lender::new(wrong_caller).unwrap_or_else(|wrong| panic!("{wrong}"))
}

/// The answer of `wrong.c`, whatever the trace.
fn case() -> Case {
    let outcome = Outcome {
        code: 14,
        events: 2,
        offset: 3,
        races: 1,
        visits: 5 << 32,
        most: 4,
        entries: vec![[7, 8, 9]],
    };
    Case {
        name: "whatever".to_owned(),
        trace: vec![0x00, 0x06, 0x01],
        outcome,
    }
}

/// The length of the report tells `wrong.c` what to do wrong, and where: a large
/// one nothing.
fn telling(wrong: Wrong, place: usize) -> Lending {
    Lending::exact(wrong as usize * 16 + place)
}

/// What is shown of the call, in a program of its own: the last may have ended.
fn found(lending: &Lending) -> Option<String> {
    lender().call(&case(), lending).err()
}

/// What is shown of the call, from what it got on.
fn got(lender: &mut Lender<Caller>, lending: &Lending) -> String {
    let called = lender.call(&case(), lending);
    let text = called.expect_err("something wrong");
    let (_, got) = text.split_once("\n  got      ").expect("what it got");
    got.to_owned()
}

/// The same in a program of its own.
fn got_alone(lending: &Lending) -> String {
    got(&mut lender(), lending)
}

/// A piece is too short, so nothing may be touched.
fn closed(mut lending: Lending) -> Lending {
    lending.pieces[3].length = PIECE - 1;
    lending.closed = true;
    lending
}

#[test]
fn what_is_right_is_let_pass_call_after_call() {
    let mut lender = lender();
    for length in 0..16 {
        for place in ENDS {
            let mut lending = telling(Wrong::Nothing, length);
            (0..MEMORIES).for_each(|memory| lending.lay(memory, place));
            lending.pieces[length % PIECES].length += length * page();
            lending.seed = length as u64;
            assert_eq!(lender.call(&case(), &lending), Ok(14));
            lending.dirt = Dirt::AsItIs;
            assert_eq!(lender.call(&case(), &lending), Ok(14));
            assert_eq!(lender.call(&case(), &closed(lending)), Ok(1));
        }
    }
    for piece in 0..PIECES {
        let mut lending = telling(Wrong::Nothing, 0);
        lending.pieces[piece].length -= 1;
        assert_eq!(lender.call(&case(), &lending), Ok(1));
    }
}

/// Of the visits that `wrong.c` gives each bit stands for a memory.
#[test]
fn null_is_lent_as_null() {
    let mut memories = no_memories();
    let mut caller = wrong_caller(&memories).unwrap();
    let none = Lent {
        length: 0,
        place: Place::After,
    };
    for memory in 0..MEMORIES {
        let mut lent = [none; MEMORIES];
        lent[memory] = Lent::NULL;
        let answer = caller.call(&mut memories, &lent, false).unwrap();
        assert_eq!((answer.code, answer.visits), (1, 1 << memory));
    }
    let answer = caller.call(&mut memories, &[none; MEMORIES], false);
    assert_eq!(answer.unwrap().visits, 0);
}

/// A program in which every memory had more pages before.
fn with_less_memory() -> Lender<Caller> {
    let mut lender = lender();
    let mut lending = telling(Wrong::Nothing, page());
    let pieces = lending.pieces.iter_mut();
    pieces.for_each(|piece| piece.length += page());
    let trace = vec![0; 2 * page()];
    let longer = Case { trace, ..case() };
    assert_eq!(lender.call(&longer, &lending), Ok(14));
    lender
}

#[test]
fn no_byte_right_before_or_behind_a_memory_can_be_touched() {
    let wrongs = [
        (Wrong::ReadBefore, Place::After),
        (Wrong::WriteBefore, Place::After),
        (Wrong::ReadBehind, Place::Before),
        (Wrong::WriteBehind, Place::Before),
    ];
    for memory in 0..MEMORIES {
        for (wrong, place) in wrongs {
            let mut lending = telling(wrong, memory);
            lending.lay(memory, place);
            for mut lender in [lender(), with_less_memory()] {
                assert_eq!(got(&mut lender, &lending), TOUCHED, "{wrong:?} {memory}");
            }
        }
    }
}

#[test]
fn the_trace_can_only_be_read() {
    assert_eq!(found(&telling(Wrong::ReadFirst, TRACE)), None);
    assert_eq!(got_alone(&telling(Wrong::WriteFirst, TRACE)), TOUCHED);
}

#[test]
fn what_is_written_elsewhere_is_compared() {
    for (memory, name) in NAMES.into_iter().enumerate().skip(REPORT) {
        assert_eq!(found(&telling(Wrong::ReadFirst, memory)), None);
        let text = got_alone(&telling(Wrong::WriteFirst, memory));
        let from = format!("{name}, from number 0 on (1 bytes differ)");
        assert!(text.contains(&from), "{text}");
    }
}

#[test]
fn nothing_can_be_touched_where_the_pages_are_closed() {
    for memory in 0..MEMORIES {
        for wrong in [Wrong::ReadFirst, Wrong::WriteFirst] {
            let lending = closed(telling(wrong, memory));
            assert_eq!(got_alone(&lending), TOUCHED, "{wrong:?} {memory}");
        }
        let mut open = closed(telling(Wrong::ReadFirst, memory));
        open.closed = false;
        assert_eq!(found(&open), None);
    }
}

#[test]
fn pages_can_be_closed_and_opened() {
    let mut lender = lender();
    let nothing = telling(Wrong::Nothing, 9);
    for lending in [&nothing, &closed(nothing.clone()), &nothing] {
        assert!(lender.call(&case(), lending).is_ok());
    }
    let touching = closed(telling(Wrong::ReadFirst, FIRST_PIECE));
    assert_eq!(got(&mut lender, &touching), TOUCHED);
}

#[test]
fn every_number_returned_is_passed_on() {
    let mut lender = lender();
    let right = "Answer { code: 14, events: 2, offset: 3, races: 1, visits: 21474836480, most: 4 }";
    let numbers = [
        "code: 15,",
        "events: 3,",
        "offset: 4,",
        "races: 2,",
        "visits: 21474836481,",
        "most: 5 }",
    ];
    for (number, changed) in numbers.into_iter().enumerate() {
        let lending = telling(Wrong::ReturnAnother, number);
        let text = lender.call(&case(), &lending).unwrap_err();
        let (expected, got) = text.split_once("\n  got      ").unwrap();
        assert!(expected.ends_with(right), "{text}");
        assert!(got.contains(changed), "{text}");
    }
}

#[test]
fn an_end_of_any_kind_is_shown_in_words() {
    let got = |wrong, place| got_alone(&telling(wrong, place));
    let in_time = "signal 14: it did not come to an end in time";
    assert_eq!(got(Wrong::Loop, 0), in_time);
    assert_eq!(got(Wrong::GoWild, 0), TOUCHED);
    for (status, words) in [
        (0, "exit status: 0: it ended the program"),
        (3, "exit status: 3: it ended the program"),
    ] {
        assert_eq!(got(Wrong::Exit, status), words);
    }
    for (signal, words) in [
        (4, "signal 4: it ran into an unlawful instruction"),
        (6, "signal 6: it was ended"),
        (7, "signal 7: it touched memory that is not there"),
        (8, "signal 8: it divided by zero"),
    ] {
        assert_eq!(got(Wrong::Raise, signal), words);
    }
}

#[test]
fn a_call_without_an_answer_is_shown_like_any_other() {
    let text = found(&telling(Wrong::GoWild, 0)).expect("a fault");
    for part in [
        "whatever\n  trace    00 06 01\n  lent     pages open",
        "report 128 before a protected page",
        "\n  expected Answer { code: 14, events: 2, offset: 3",
    ] {
        assert!(text.contains(part), "{part} is not in {text}");
    }
}

/// What the program ends with after these bytes of requests.
fn status_after(bytes: &[u8]) -> Option<i32> {
    let mut caller = wrong_caller(&no_memories()).unwrap();
    let requests = caller.child.stdin.as_mut().unwrap();
    requests.write_all(bytes).unwrap();
    caller.end().code()
}

#[test]
fn it_ends_with_the_requests_and_fails_where_one_is_wrong() {
    let request = |memory: u64| [memory.to_le_bytes(); 3 * MEMORIES + 1].concat();
    let right = request(0);
    assert_eq!(status_after(&[]), Some(0));
    assert_eq!(status_after(&right), Some(0));
    assert_eq!(status_after(&right[1..]), Some(2));
    assert_eq!(status_after(&[&right, &right[..8]].concat()), Some(2));
    // More memory than there is.
    assert_eq!(status_after(&request(1 << 62)), Some(2));
}

#[test]
fn what_cannot_be_started_is_named() {
    let wrong = |started: Result<Caller, String>| started.err().unwrap();
    let missing = wrong(Caller::started("no_caller", &no_memories()));
    let built = "/target/tests/no_caller: `make target/tests/no_caller` builds it";
    assert!(missing.ends_with(built), "{missing}");
    let emulator = wrong(Caller::of(Command::new("no_emulator")));
    let begin = "\"no_emulator\" cannot be started: ";
    assert!(emulator.starts_with(begin), "{emulator}");
    // It takes nine words, not ten.
    let mut command = command("wrong_caller", &no_memories()).unwrap();
    command.stderr(Stdio::null()).arg("7");
    let ended = wrong(Caller::of(command));
    let end = " \"7\" cannot be started: exit status: 2";
    assert!(ended.ends_with(end), "{ended}");
}
