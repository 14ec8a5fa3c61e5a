//! From bytes to numbers to events, with codes 3, 4, 5 and 6.

use crate::codes::{Code, ENDS_INSIDE_NUMBER, OPERAND_TOO_LARGE, RESERVED_KIND, WRONG_FORM};
use crate::kinds::{Kind, RESERVED, TABLE};
use crate::limits::{BITS_OF_A_GROUP, KINDS_IN_ALL, MOST_GROUPS};

const TOP_BIT: u8 = 0x80;

/// A number and how many bytes it took.
#[derive(Clone, Copy, PartialEq, Eq, Debug)]
pub struct Number {
    pub value: u32,
    pub bytes: usize,
}

/// An event as the bytes give it, and how many bytes it took.
#[derive(Clone, Copy, PartialEq, Eq, Debug)]
pub struct Event {
    pub kind: Kind,
    pub operand: u32,
    pub bytes: usize,
}

/// Reads the number at the front of `bytes`, which is not empty.
///
/// "A trace is a row of numbers, each in groups of seven bits, lowest group
/// first, one group to a byte. The top bit is set when another group follows.
/// The shortest form is the only one. A number has at most three groups."
pub fn read_number(bytes: &[u8]) -> Result<Number, Code> {
    let mut value = 0;
    for place in 0..MOST_GROUPS {
        // "the bytes end inside a number of fewer than three bytes"
        let Some(&byte) = bytes.get(place) else {
            return Err(ENDS_INSIDE_NUMBER);
        };
        let group = u32::from(byte & !TOP_BIT);
        value |= group << (BITS_OF_A_GROUP * place as u32);
        let another_follows = byte & TOP_BIT != 0;
        if another_follows {
            continue;
        }
        // "or the last of several groups is zero": a lone zero group is the number 0.
        if place > 0 && group == 0 {
            return Err(WRONG_FORM);
        }
        return Ok(Number {
            value,
            bytes: place + 1,
        });
    }
    // "a third byte has its top bit set": no fourth byte is looked for.
    Err(WRONG_FORM)
}

/// Reads the event at the front of `bytes`, which is not empty.
///
/// "The kind is the number mod 8, the operand the number divided by 8, rounded
/// down."
pub fn read_event(bytes: &[u8]) -> Result<Event, Code> {
    let number = read_number(bytes)?;
    let kind = (number.value % KINDS_IN_ALL) as Kind;
    let operand = number.value / KINDS_IN_ALL;
    if kind == RESERVED {
        return Err(RESERVED_KIND);
    }
    if operand > TABLE[kind].largest_operand {
        return Err(OPERAND_TOO_LARGE);
    }
    Ok(Event {
        kind,
        operand,
        bytes: number.bytes,
    })
}

#[cfg(test)]
mod tests {
    use super::*;
    use crate::kinds::{LOCK, READ, SPAWN, WRITE};

    fn number(value: u32, bytes: usize) -> Result<Number, Code> {
        Ok(Number { value, bytes })
    }

    #[test]
    fn one_two_and_three_groups() {
        assert_eq!(read_number(&[0x00]), number(0, 1));
        assert_eq!(read_number(&[0x7F]), number(127, 1));
        assert_eq!(read_number(&[0x80, 0x01]), number(128, 2));
        assert_eq!(read_number(&[0xFF, 0x7F]), number(16_383, 2));
        assert_eq!(read_number(&[0x80, 0x80, 0x01]), number(16_384, 3));
        assert_eq!(read_number(&[0xFF, 0xFF, 0x7F]), number(2_097_151, 3));
        // Lowest group first: 1 + 2 * 128 + 3 * 16,384.
        assert_eq!(read_number(&[0x81, 0x82, 0x03]), number(49_409, 3));
    }

    #[test]
    fn what_follows_the_number_plays_no_part() {
        assert_eq!(read_number(&[0x05, 0xFF, 0xFF]), number(5, 1));
        assert_eq!(read_number(&[0x85, 0x01, 0x80]), number(133, 2));
    }

    #[test]
    fn longer_forms_are_refused() {
        for bytes in [
            &[0x80, 0x00][..],
            &[0xFF, 0x00],
            &[0xFF, 0x80, 0x00],
            &[0x80, 0xFF, 0x00],
        ] {
            assert_eq!(read_number(bytes), Err(WRONG_FORM), "{bytes:?}");
        }
        assert_eq!(read_number(&[0x81, 0x81, 0x81]), Err(WRONG_FORM));
        assert_eq!(read_number(&[0x81, 0x81, 0x80, 0x00]), Err(WRONG_FORM));
    }

    #[test]
    fn the_bytes_end_inside_a_number() {
        assert_eq!(read_number(&[0x80]), Err(ENDS_INSIDE_NUMBER));
        assert_eq!(read_number(&[0x80, 0x80]), Err(ENDS_INSIDE_NUMBER));
        assert_eq!(read_number(&[0x80, 0x80, 0x80]), Err(WRONG_FORM));
    }

    #[test]
    fn kind_seven_is_refused_before_its_operand() {
        assert_eq!(read_event(&[0x07]), Err(RESERVED_KIND));
        assert_eq!(read_event(&[0x0F]), Err(RESERVED_KIND));
        assert_eq!(read_event(&[0xFF, 0xFF, 0x7F]), Err(RESERVED_KIND));
    }

    #[test]
    fn the_largest_operands_and_the_next() {
        let event = |kind, operand, bytes| {
            Ok(Event {
                kind,
                operand,
                bytes,
            })
        };
        assert_eq!(read_event(&[0x00]), event(SPAWN, 0, 1));
        assert_eq!(read_event(&[0x08]), Err(OPERAND_TOO_LARGE));
        assert_eq!(read_event(&[0xF3, 0x03]), event(LOCK, 62, 2));
        assert_eq!(read_event(&[0xFC, 0x03]), Err(OPERAND_TOO_LARGE));
        assert_eq!(read_event(&[0xFD, 0xFF, 0x01]), event(READ, 4_095, 3));
        assert_eq!(read_event(&[0xFE, 0xFF, 0x01]), event(WRITE, 4_095, 3));
        assert_eq!(read_event(&[0x85, 0x80, 0x02]), Err(OPERAND_TOO_LARGE));
    }
}
