//! Base 32 (RFC 4648, section 6).

const ALPHABET: &[u8; 32] = b"ABCDEFGHIJKLMNOPQRSTUVWXYZ234567";

/// Five bytes become eight characters. The last group is filled up with
/// zeros, and the characters of only these are replaced by padding.
pub fn encode(data: &[u8]) -> String {
    let mut text = Vec::with_capacity(data.len().div_ceil(5) * 8);
    let (groups, rest) = data.as_chunks();
    for group in groups {
        text.extend(characters(group));
    }
    if !rest.is_empty() {
        let mut group = [0; 5];
        group[..rest.len()].copy_from_slice(rest);
        let mut last = characters(&group);
        last[(8 * rest.len()).div_ceil(5)..].fill(b'=');
        text.extend(last);
    }
    String::from_utf8(text).expect("the alphabet is ASCII")
}

fn characters(group: &[u8; 5]) -> [u8; 8] {
    let bits = group
        .iter()
        .fold(0, |bits, &byte| bits << 8 | u64::from(byte));
    std::array::from_fn(|i| ALPHABET[(bits >> (35 - 5 * i)) as usize % 32])
}

#[cfg(test)]
mod tests {
    use super::*;
    use crate::hex;

    /// RFC 4648, section 10.
    #[test]
    fn examples() {
        for (data, text) in [
            ("", ""),
            ("f", "MY======"),
            ("fo", "MZXQ===="),
            ("foo", "MZXW6==="),
            ("foob", "MZXW6YQ="),
            ("fooba", "MZXW6YTB"),
            ("foobar", "MZXW6YTBOI======"),
        ] {
            assert_eq!(encode(data.as_bytes()), text);
        }
    }

    #[test]
    fn every_character() {
        let data = hex::decode("00443214c74254b635cf84653a56d7c675be77df").expect("digits");
        assert_eq!(encode(&data).as_bytes(), ALPHABET);
    }
}
