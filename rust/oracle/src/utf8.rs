//! RFC 3629, section 4: the syntax of UTF-8 byte sequences.

/// The character that stands at `at`, whole, and its length in bytes.
pub fn character(bytes: &[u8], at: usize) -> Option<(u32, usize)> {
    let rest = bytes.get(at..)?;
    let tail = |index: usize, low: u8, high: u8| {
        rest.get(index)
            .filter(|byte| (low..=high).contains(*byte))
            .map(|byte| u32::from(byte & 0x3F))
    };
    let first = *rest.first()?;
    let lead = u32::from(first);
    match first {
        0x00..=0x7F => Some((lead, 1)),
        0xC2..=0xDF => Some(((lead & 0x1F) << 6 | tail(1, 0x80, 0xBF)?, 2)),
        0xE0..=0xEF => {
            // No overlong form (E0) and no surrogate (ED).
            let (low, high) = match first {
                0xE0 => (0xA0, 0xBF),
                0xED => (0x80, 0x9F),
                _ => (0x80, 0xBF),
            };
            let two = tail(1, low, high)? << 6 | tail(2, 0x80, 0xBF)?;
            Some(((lead & 0x0F) << 12 | two, 3))
        }
        0xF0..=0xF4 => {
            // No overlong form (F0) and nothing above 10FFFF (F4).
            let (low, high) = match first {
                0xF0 => (0x90, 0xBF),
                0xF4 => (0x80, 0x8F),
                _ => (0x80, 0xBF),
            };
            let three =
                tail(1, low, high)? << 12 | tail(2, 0x80, 0xBF)? << 6 | tail(3, 0x80, 0xBF)?;
            Some(((lead & 0x07) << 18 | three, 4))
        }
        _ => None,
    }
}

pub fn is_utf8(bytes: &[u8]) -> bool {
    let mut at = 0;
    while at < bytes.len() {
        match character(bytes, at) {
            Some((_, length)) => at += length,
            None => return false,
        }
    }
    true
}

/// In UTF-8: does a character start or the text end here?
pub fn is_edge(bytes: &[u8], at: usize) -> bool {
    at == bytes.len() || bytes.get(at).is_some_and(|byte| !(0x80..=0xBF).contains(byte))
}

#[cfg(test)]
mod tests {
    use super::*;

    /// Every sequence of up to three bytes, and of four around each edge, as Rust sees it.
    #[test]
    fn agrees_with_std() {
        for b0 in 0..=255u8 {
            assert_eq!(is_utf8(&[b0]), std::str::from_utf8(&[b0]).is_ok());
            for b1 in 0..=255u8 {
                assert_eq!(is_utf8(&[b0, b1]), std::str::from_utf8(&[b0, b1]).is_ok());
                for b2 in 0..=255u8 {
                    let three = [b0, b1, b2];
                    assert_eq!(is_utf8(&three), std::str::from_utf8(&three).is_ok());
                    for b3 in [0x00, 0x7F, 0x80, 0xBF, 0xC0, 0xFF] {
                        let four = [b0, b1, b2, b3];
                        assert_eq!(is_utf8(&four), std::str::from_utf8(&four).is_ok());
                    }
                }
            }
        }
    }

    #[test]
    fn decodes_every_scalar() {
        for c in (0..=0x10FFFF).filter_map(char::from_u32) {
            let mut buffer = [0; 4];
            let bytes = c.encode_utf8(&mut buffer).as_bytes();
            assert_eq!(character(bytes, 0), Some((c as u32, bytes.len())));
        }
    }
}
