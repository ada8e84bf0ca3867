//! Text, by Rust's own test, and random text.

use super::random::Random;

/// Is this well-formed UTF-8 with no byte 0 or '/'?
pub fn is_text(bytes: &[u8]) -> bool {
    std::str::from_utf8(bytes).is_ok() && !bytes.contains(&0) && !bytes.contains(&b'/')
}

/// The numbers of the characters of one byte in UTF-8, but for 0, and of those
/// of two, three and four bytes.
const NUMBERS: [std::ops::Range<u32>; 4] =
    [0x1..0x80, 0x80..0x800, 0x800..0x1_0000, 0x1_0000..0x11_0000];

/// A character other than 0 and '/', of this many bytes.
pub fn random_character(random: &mut Random, width: usize) -> char {
    let numbers = &NUMBERS[width - 1];
    loop {
        let number = numbers.start + random.below(numbers.len()) as u32;
        if let Some(character) = char::from_u32(number).filter(|&other| other != '/') {
            return character;
        }
    }
}

/// Text of this many bytes, with characters of all widths.
pub fn random_text(random: &mut Random, len: usize) -> Vec<u8> {
    let mut text = String::new();
    while text.len() < len {
        let width = 1 + random.below(4.min(len - text.len()));
        text.push(random_character(random, width));
    }
    text.into_bytes()
}
