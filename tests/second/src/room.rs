//! The working room that is lent: code 1, and what the room holds after a call.

use crate::call::Outcome;
use crate::codes::{ROOM_TOO_SHORT, TRACE_TOO_LONG};
use crate::limits::PIECE;

/// "a piece of working room is too short": the lengths are in numbers.
pub fn is_too_short(lengths: &[usize]) -> bool {
    lengths.iter().any(|length| *length < PIECE)
}

/// "1 and 2 before anything is read, and then nothing at all is touched and the
/// other numbers are 0."
pub fn refused() -> Outcome {
    Outcome {
        code: ROOM_TOO_SHORT,
        ..Outcome::default()
    }
}

/// What the bytes of a piece hold after the call, with numbers of so many bytes.
///
/// "At exit its used part (of each piece the first numbers up to that size, the
/// same for every trace) is all zero and the rest unchanged."
pub fn leave_piece(outcome: &Outcome, piece: &mut [u8], bytes_of_a_number: usize) {
    let touched = ![ROOM_TOO_SHORT, TRACE_TOO_LONG].contains(&outcome.code);
    if touched {
        piece[..PIECE * bytes_of_a_number].fill(0);
    }
}

#[cfg(test)]
mod tests {
    use super::*;

    #[test]
    fn one_number_too_few_in_any_piece() {
        assert!(!is_too_short(&[4_096, 4_097, 9_999]));
        assert!(is_too_short(&[4_096, 4_095]));
        assert!(is_too_short(&[0, 4_096]));
    }

    #[test]
    fn the_used_part_is_zero_unless_nothing_is_touched() {
        for bytes_of_a_number in [4, 8] {
            let used = 4_096 * bytes_of_a_number;
            for code in 0..=14 {
                let outcome = Outcome { code, ..refused() };
                let mut piece = vec![7; used + 3];
                leave_piece(&outcome, &mut piece, bytes_of_a_number);
                let zero = piece.iter().take_while(|byte| **byte == 0).count();
                assert_eq!(zero, if code == 1 || code == 2 { 0 } else { used });
                assert!(piece[zero..].iter().all(|byte| *byte == 7));
            }
        }
    }
}
