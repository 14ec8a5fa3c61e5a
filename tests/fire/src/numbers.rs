//! Numbers of one, four or eight bytes, as they lie in the library's memory: the
//! lowest byte comes first, whatever processor this is.

/// The number that these bytes are.
pub fn read(bytes: &[u8]) -> u64 {
    match *bytes {
        [byte] => u64::from(byte),
        [a, b, c, d] => u64::from(u32::from_le_bytes([a, b, c, d])),
        _ => u64::from_le_bytes(bytes.try_into().expect("a number of eight bytes")),
    }
}

/// Writes a number into bytes that hold just one.
pub fn write(bytes: &mut [u8], number: u64) {
    match bytes.len() {
        1 => bytes[0] = number as u8,
        4 => bytes.copy_from_slice(&(number as u32).to_le_bytes()),
        _ => bytes.copy_from_slice(&number.to_le_bytes()),
    }
}

#[cfg(test)]
mod tests {
    use super::*;

    #[test]
    fn what_is_written_is_read() {
        for (width, largest) in [(1, 0xFF), (4, 0xFFFF_FFFF), (8, u64::MAX)] {
            for number in [0, 1, largest - 1, largest] {
                let mut bytes = vec![0xAA; width];
                write(&mut bytes, number);
                assert_eq!(read(&bytes), number);
            }
        }
    }

    #[test]
    fn the_lowest_byte_comes_first() {
        let mut bytes = [0; 4];
        write(&mut bytes, 0x0102_0304);
        assert_eq!(bytes, [4, 3, 2, 1]);
        assert_eq!(read(&[9, 0, 0, 0, 0, 0, 0, 1]), 1 << 56 | 9);
    }
}
