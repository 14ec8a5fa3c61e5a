//! What the fuzzer calls: its first bytes choose what is lent, the rest is the
//! trace, and the comparison is that of `fire`.

use fire::caller::Caller;
use fire::case::Case;
use fire::dirt::Dirt;
use fire::lender::Lender;
use fire::lending::{Lending, Lent, Place, ENDS};
use second::limits::{PIECE, PIECES};
use std::cell::RefCell;

/// How many bytes choose what is lent. All zero they choose pieces of just the
/// right sizes and no report.
const HEAD: usize = 6;

thread_local! {
    static LENDER: RefCell<Lender<Caller>> =
        RefCell::new(Lender::to_the_library().unwrap_or_else(|wrong| stopped(&wrong)));
}

/// Says what is wrong, and ends the program such that the fuzzer notices.
fn stopped(wrong: &str) -> ! {
    eprintln!("{wrong}");
    std::process::abort()
}

/// # Safety
/// `data` leads to `size` bytes.
#[no_mangle]
pub unsafe extern "C" fn LLVMFuzzerTestOneInput(data: *const u8, size: usize) -> i32 {
    let input = match size {
        0 => &[],
        _ => unsafe { std::slice::from_raw_parts(data, size) },
    };
    let Some((head, trace)) = input.split_first_chunk() else {
        return 0;
    };
    let case = Case::new("an input of the fuzzer", trace.to_vec());
    let lending = chosen(head, trace.is_empty());
    let called = LENDER.with_borrow_mut(|lender| lender.call(&case, &lending));
    if let Err(wrong) = called {
        stopped(&wrong);
    }
    0
}

/// What the head chooses: a piece to be too short or longer than used, the
/// length of the report, which end of its pages each memory is at, the dirt, and
/// whether the pages are closed where nothing may be touched.
fn chosen(head: &[u8; HEAD], trace_is_empty: bool) -> Lending {
    let &[piece, length, report, places, dirt, more] = head;
    let mut lending = Lending::exact(usize::from(report));
    let end = |bits: u8, number: usize| ENDS[usize::from(bits >> number & 1)];
    for (number, lent) in lending.pieces.iter_mut().enumerate() {
        lent.place = end(places, number);
    }
    lending.report.place = end(places, PIECES);
    lending.trace = match more & 3 {
        3 if trace_is_empty => Place::Null,
        bits => end(bits, 0),
    };
    lending.dirt = Dirt::ALL[usize::from(dirt) % Dirt::ALL.len()];
    lending.seed = u64::from(dirt);
    if (1..=PIECES).contains(&usize::from(piece)) {
        let lent = &mut lending.pieces[usize::from(piece) - 1];
        match length {
            0 => lent.length = PIECE - 1,
            1 => lent.length = 0,
            2 => *lent = Lent::NULL,
            _ => lent.length = PIECE + usize::from(length) - 2,
        }
        lending.closed = length <= 2 && more & 4 != 0;
    }
    lending
}
