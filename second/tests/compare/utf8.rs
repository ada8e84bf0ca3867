//! Proper text.

use crate::common::check;
use crate::common::random::Random;
use crate::common::text::{is_text, random_text};

/// Also held to Rust's own test.
fn check(text: &[u8]) {
    assert_eq!(check::proper_text(text), is_text(text), "{text:x?}");
}

#[test]
fn all_of_three_bytes() {
    check(b"");
    for number in 0..1 << 24 {
        let [_, text @ ..] = u32::to_be_bytes(number);
        check(&text);
    }
}

#[test]
fn all_of_one_and_two_bytes() {
    for one in 0..=255 {
        check(&[one]);
        for two in 0..=255 {
            check(&[one, two]);
        }
    }
}

/// All first and second bytes, with others at the edges of ranges.
#[test]
fn four_bytes() {
    let edges = [0x00, 0x2f, 0x7f, 0x80, 0x8f, 0x90, 0x9f, 0xa0, 0xbf, 0xc0];
    for one in 0..=255 {
        for two in 0..=255 {
            for three in edges {
                for four in edges {
                    check(&[one, two, three, four]);
                }
            }
        }
    }
}

/// Each character, by itself and between others.
#[test]
fn characters() {
    for character in '\0'..=char::MAX {
        check(character.to_string().as_bytes());
        check(format!("\u{10d0}{character}a").as_bytes());
    }
}

/// Text of every length, and with each byte changed.
#[test]
fn changed_texts() {
    let mut random = Random::new(41);
    for len in 0..=300 {
        let text = random_text(&mut random, len);
        assert!(check::proper_text(&text));
        for place in 0..len {
            let mut changed = text.clone();
            changed[place] = random.word() as u8;
            check(&changed);
            check(&text[..place]);
            check(&text[place..]);
        }
    }
}
