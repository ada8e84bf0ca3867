//! UTF-8 (RFC 3629), by the table of section 3: the bits of a character are
//! joined, and count only in the shortest form that holds them.

/// Is this well-formed UTF-8 without the characters 0 and '/'?
pub fn is_proper(text: &[u8]) -> bool {
    let mut rest = text;
    while let Some((number, len)) = first(rest) {
        if number == 0 || number == u32::from('/') {
            return false;
        }
        rest = &rest[len..];
    }
    rest.is_empty()
}

/// The number of the first character, and how many bytes it takes; `None` if
/// there are no bytes, or not those of a character.
pub fn first(text: &[u8]) -> Option<(u32, usize)> {
    let lead = *text.first()?;
    let (bits, tails, least) = match lead.leading_ones() {
        0 => return Some((lead.into(), 1)),
        2 => (lead & 0x1f, 1, 0x80),
        3 => (lead & 0x0f, 2, 0x800),
        4 => (lead & 0x07, 3, 0x1_0000),
        _ => return None,
    };
    let mut number = u32::from(bits);
    for &tail in text.get(1..=tails)? {
        if tail >> 6 != 0b10 {
            return None;
        }
        number = number << 6 | u32::from(tail & 0x3f);
    }
    let surrogate = number >> 11 == 0xd800 >> 11;
    (number >= least && number <= 0x10_ffff && !surrogate).then_some((number, 1 + tails))
}

#[cfg(test)]
mod tests {
    use super::*;

    /// Rust's own test, and no byte 0 or '/'.
    fn expected(text: &[u8]) -> bool {
        std::str::from_utf8(text).is_ok() && !text.contains(&0) && !text.contains(&b'/')
    }

    #[test]
    fn every_character() {
        let mut bytes = [0; 4];
        for character in '\0'..=char::MAX {
            let text = character.encode_utf8(&mut bytes).as_bytes();
            assert_eq!(first(text), Some((character.into(), text.len())));
            assert_eq!(is_proper(text), !matches!(character, '\0' | '/'));
        }
    }

    #[test]
    fn every_three_bytes() {
        assert!(is_proper(b""));
        for number in 0..1 << 24 {
            let [_, text @ ..] = u32::to_be_bytes(number);
            for len in 1..=3 {
                assert_eq!(is_proper(&text[..len]), expected(&text[..len]), "{text:x?}");
            }
        }
    }

    /// Four bytes, of which the last two are at the edges of their range.
    #[test]
    fn four_bytes() {
        for number in 0..=u16::MAX {
            let [one, two] = number.to_be_bytes();
            for three in [0x00, 0x2f, 0x7f, 0x80, 0xbf, 0xc0] {
                for four in [0x00, 0x2f, 0x7f, 0x80, 0xbf, 0xc0] {
                    let text = [one, two, three, four];
                    assert_eq!(is_proper(&text), expected(&text), "{text:x?}");
                }
            }
        }
    }
}
