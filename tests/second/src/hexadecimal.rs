//! Bytes as 01 writes them: two hexadecimal digits a byte, spaces between.

pub fn written(bytes: &[u8]) -> String {
    let pairs: Vec<String> = bytes.iter().map(|byte| format!("{byte:02X}")).collect();
    pairs.join(" ")
}

/// The bytes, or of a long trace the first ones, so that a message stays short.
pub fn shown(bytes: &[u8]) -> String {
    const MOST_SHOWN: usize = 2_000;
    if bytes.len() <= MOST_SHOWN {
        return written(bytes);
    }
    let first = written(&bytes[..MOST_SHOWN]);
    format!("{first} ... {} bytes in all", bytes.len())
}

pub fn read(text: &str) -> Result<Vec<u8>, String> {
    text.split_whitespace().map(byte).collect()
}

fn byte(word: &str) -> Result<u8, String> {
    let plain = word.len() == 2 && word.bytes().all(|digit| digit.is_ascii_hexdigit());
    if !plain {
        return Err(format!("`{word}` is not a byte of two hexadecimal digits"));
    }
    u8::from_str_radix(word, 16).map_err(|error| format!("`{word}`: {error}"))
}

#[cfg(test)]
mod tests {
    use super::*;

    #[test]
    fn a_long_trace_is_shown_in_part() {
        assert_eq!(shown(&[1; 2_000]), written(&[1; 2_000]));
        assert!(shown(&[1; 2_001]).ends_with(" 01 ... 2001 bytes in all"));
    }

    #[test]
    fn bytes_come_back_and_anything_else_is_refused() {
        assert_eq!(read(&written(&[0, 0x0B, 0xFF])), Ok(vec![0, 0x0B, 0xFF]));
        assert_eq!(read(""), Ok(vec![]));
        for wrong in ["0", "000", "0G", "+1"] {
            assert!(read(wrong).is_err(), "{wrong}");
        }
    }
}
