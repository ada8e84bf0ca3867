//! Base 64 with the URL and filename safe alphabet (RFC 4648, section 5).

use crate::places;

const ALPHABET: &[u8; 64] = b"ABCDEFGHIJKLMNOPQRSTUVWXYZabcdefghijklmnopqrstuvwxyz0123456789-_";

/// The characters of a whole group.
pub const GROUP_LEN: usize = 4;

/// In [`VALUES`], what is not in the alphabet.
const NONE: u8 = 0xff;

/// The value of each character.
static VALUES: [u8; 256] = values();

const fn values() -> [u8; 256] {
    let mut values = [NONE; 256];
    let mut value = 0;
    while value < 64 {
        values[ALPHABET[value] as usize] = value as u8;
        value += 1;
    }
    values
}

/// Three bytes become four characters. The last group can be shorter; it is
/// filled up to four characters if `padded`.
pub fn encode(data: &[u8], padded: bool) -> String {
    let mut text = Vec::with_capacity(data.len().div_ceil(3) * 4);
    let (groups, rest) = data.as_chunks();
    for group in groups {
        text.extend(characters(group));
    }
    if !rest.is_empty() {
        let mut group = [0; 3];
        group[..rest.len()].copy_from_slice(rest);
        text.extend_from_slice(&characters(&group)[..rest.len() + 1]);
        if padded {
            text.resize(text.len().next_multiple_of(4), b'=');
        }
    }
    String::from_utf8(text).expect("the alphabet is ASCII")
}

/// Gives the data of what [`encode`] made with the same `padded`, and `None`
/// for anything else: the bits of the last characters that no byte takes must
/// be zero.
pub fn decode(text: &[u8], padded: bool) -> Option<Vec<u8>> {
    let digits = if padded { without_padding(text)? } else { text };
    let mut data = Vec::with_capacity(digits.len().div_ceil(4) * 3);
    let (groups, rest) = digits.as_chunks();
    for group in groups {
        data.extend(bytes(group)?);
    }
    if !rest.is_empty() {
        let mut group = [ALPHABET[0]; 4];
        group[..rest.len()].copy_from_slice(rest);
        let bytes = bytes(&group)?;
        let (used, spare) = bytes.split_at(rest.len() - 1);
        if used.is_empty() || spare.iter().any(|&byte| byte != 0) {
            return None;
        }
        data.extend_from_slice(used);
    }
    Some(data)
}

/// Where a text that [`decode`] refuses is broken: the place of the first
/// character with which no text begins that it takes, or the text's length.
///
/// The continuations that are tried are enough. What follows a start is
/// characters of the alphabet and then padding. With `A` for each of these
/// characters the text is still taken: spare bits in the start are as they were,
/// and others are zero. With four of them left out it is taken too, as long as one
/// remains, so that the last character before the padding is the same.
pub fn place(text: &[u8], padded: bool) -> usize {
    let endings: &[&str] = if padded { &["", "=", "=="] } else { &[""] };
    let is_taken = |text: &[u8]| decode(text, padded).is_some();
    places::place(text, |start| {
        places::goes_on(start, GROUP_LEN, endings, is_taken)
    })
}

fn characters(group: &[u8; 3]) -> [u8; 4] {
    let [a, b, c] = *group;
    let bits = u32::from_be_bytes([0, a, b, c]);
    std::array::from_fn(|i| ALPHABET[(bits >> (18 - 6 * i)) as usize % 64])
}

/// `None` unless the text is whole groups, the last with up to two `=`.
fn without_padding(text: &[u8]) -> Option<&[u8]> {
    let shorter = text.strip_suffix(b"=").unwrap_or(text);
    let digits = shorter.strip_suffix(b"=").unwrap_or(shorter);
    text.len().is_multiple_of(4).then_some(digits)
}

fn bytes(group: &[u8; 4]) -> Option<[u8; 3]> {
    let values = group.map(|character| VALUES[usize::from(character)]);
    let bits = values
        .iter()
        .fold(0, |bits, &value| bits << 6 | u32::from(value));
    let [_, a, b, c] = bits.to_be_bytes();
    (!values.contains(&NONE)).then_some([a, b, c])
}

#[cfg(test)]
mod place_tests;

#[cfg(test)]
mod tests {
    use super::*;
    use crate::hex;

    /// RFC 4648, section 10.
    #[test]
    fn examples() {
        for (data, text) in [
            ("", ""),
            ("f", "Zg=="),
            ("fo", "Zm8="),
            ("foo", "Zm9v"),
            ("foob", "Zm9vYg=="),
            ("fooba", "Zm9vYmE="),
            ("foobar", "Zm9vYmFy"),
        ] {
            let data = data.as_bytes();
            let digits = text.trim_end_matches('=');
            assert_eq!(encode(data, true), text);
            assert_eq!(encode(data, false), digits);
            assert_eq!(decode(text.as_bytes(), true), Some(data.to_vec()));
            assert_eq!(decode(digits.as_bytes(), false), Some(data.to_vec()));
        }
    }

    #[test]
    fn every_character() {
        let data = "00108310518720928b30d38f41149351559761969b71d79f\
                    8218a39259a7a29aabb2dbafc31cb3d35db7e39ebbf3dfbf";
        let data = hex::decode(data).expect("digits");
        assert_eq!(encode(&data, true).as_bytes(), ALPHABET);
        assert_eq!(decode(ALPHABET, false), Some(data));
    }

    #[test]
    fn refused_padded() {
        for text in [
            "=", "==", "====", "A===", "=AAA", "A=AA", "AA=A", "AA", "AAA", "AA=", "AAAA=",
            "AAAA==", "AAAA====", "AA==AAAA", "AB==", "AAB=", "AA+=", "AA/A", "AA=\n", "AAA=\n",
        ] {
            assert_eq!(decode(text.as_bytes(), true), None, "{text}");
        }
    }

    #[test]
    fn refused_unpadded() {
        for text in [
            "=", "A", "AA==", "AAA=", "AAAAA", "AAAA=", "AB", "AAB", "AP", "AAD", "A+", "A/AA",
            "AA ", "AA\n", "é",
        ] {
            assert_eq!(decode(text.as_bytes(), false), None, "{text}");
        }
    }
}
