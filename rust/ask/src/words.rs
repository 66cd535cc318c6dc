//! The words of a question.

/// The word for no bytes.
const NONE: &[u8] = b"-";

/// Bytes in hex, two digits each, in either case; `-` is none.
pub fn bytes(word: &[u8]) -> Option<Vec<u8>> {
    if word == NONE {
        return Some(Vec::new());
    }
    let (pairs, rest) = word.as_chunks();
    if pairs.is_empty() || !rest.is_empty() {
        return None;
    }
    pairs
        .iter()
        .map(|&[high, low]| Some(digit(high)? << 4 | digit(low)?))
        .collect()
}

fn digit(character: u8) -> Option<u8> {
    match character {
        b'0'..=b'9' => Some(character - b'0'),
        b'a'..=b'f' => Some(character - b'a' + 10),
        b'A'..=b'F' => Some(character - b'A' + 10),
        _ => None,
    }
}

/// A decimal number of digits alone.
pub fn number(word: &[u8]) -> Option<u32> {
    if !word.iter().all(u8::is_ascii_digit) {
        return None;
    }
    std::str::from_utf8(word).ok()?.parse().ok()
}

/// A decimal number that a byte holds.
pub fn byte(word: &[u8]) -> Option<u8> {
    number(word)?.try_into().ok()
}

/// The 64 bits of a number, in sixteen hex digits.
pub fn bits(word: &[u8]) -> Option<u64> {
    let bytes = bytes(word)?.try_into().ok()?;
    Some(u64::from_be_bytes(bytes))
}

/// An error code, in two hex digits.
pub fn code(word: &[u8]) -> Option<u8> {
    match bytes(word)?[..] {
        [code] => Some(code),
        _ => None,
    }
}

/// Decimal numbers joined by commas; `-` is none.
pub fn numbers(word: &[u8]) -> Option<Vec<u32>> {
    if word == NONE {
        return Some(Vec::new());
    }
    word.split(|&byte| byte == b',').map(number).collect()
}

#[cfg(test)]
mod tests {
    use super::*;

    #[test]
    fn hex() {
        assert_eq!(bytes(b"-"), Some(vec![]));
        assert_eq!(bytes(b"09afAF"), Some(vec![0x09, 0xAF, 0xAF]));
        for wrong in ["", "0", "000", "0g", "@0", "0`", "0x00", " 00", "--", "+1"] {
            assert_eq!(bytes(wrong.as_bytes()), None, "{wrong}");
        }
    }

    #[test]
    fn single_numbers() {
        assert_eq!(number(b"0"), Some(0));
        assert_eq!(number(b"0017"), Some(17));
        assert_eq!(number(b"4294967295"), Some(u32::MAX));
        for wrong in ["", "-", "-1", "+1", "1.0", "1 ", "0x1", "4294967296", "٣"] {
            assert_eq!(number(wrong.as_bytes()), None, "{wrong}");
        }
    }

    #[test]
    fn bytes_bits_and_codes() {
        assert_eq!((byte(b"255"), byte(b"256")), (Some(255), None));
        assert_eq!(bits(b"400921fb54442D18"), Some(0x4009_21FB_5444_2D18));
        assert_eq!(code(b"2a"), Some(0x2A));
        for wrong in ["", "-", "400921FB54442D1", "400921FB54442D1800", "1"] {
            assert_eq!(bits(wrong.as_bytes()), None, "{wrong}");
            assert_eq!(code(wrong.as_bytes()), None, "{wrong}");
        }
    }

    #[test]
    fn numbers_joined() {
        assert_eq!(numbers(b"-"), Some(vec![]));
        assert_eq!(numbers(b"7"), Some(vec![7]));
        assert_eq!(numbers(b"0,017,4294967295"), Some(vec![0, 17, u32::MAX]));
        for wrong in [
            "",
            ",",
            "1,",
            ",1",
            "1,,2",
            "1, 2",
            "1,-",
            "-,1",
            "1;2",
            "4294967296",
        ] {
            assert_eq!(numbers(wrong.as_bytes()), None, "{wrong}");
        }
    }
}
