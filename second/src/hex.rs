//! Hexadecimal text.

/// Gives `None` for an odd number of characters and for anything that is not
/// a digit.
pub fn decode(text: &str) -> Option<Vec<u8>> {
    let (pairs, rest) = text.as_bytes().as_chunks();
    if !rest.is_empty() {
        return None;
    }
    pairs
        .iter()
        .map(|[high, low]| Some(digit(*high)? << 4 | digit(*low)?))
        .collect()
}

/// The value of a digit, in either case.
pub fn digit(character: u8) -> Option<u8> {
    match character {
        b'0'..=b'9' => Some(character - b'0'),
        b'a'..=b'f' => Some(character - b'a' + 10),
        b'A'..=b'F' => Some(character - b'A' + 10),
        _ => None,
    }
}

#[cfg(test)]
mod tests {
    use super::*;

    #[test]
    fn digits() {
        assert_eq!(decode(""), Some(vec![]));
        assert_eq!(decode("0019afAF"), Some(vec![0x00, 0x19, 0xaf, 0xaf]));
    }

    #[test]
    fn not_digits() {
        for text in [
            "0", "000", "0g", "-1", "+1", " 0", "0:", "0/", "0@", "0`", "é",
        ] {
            assert_eq!(decode(text), None, "{text}");
        }
    }
}
