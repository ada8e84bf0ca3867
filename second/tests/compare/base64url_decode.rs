//! Base 64 for URLs, from text to data.

use crate::common::check;
use crate::common::random::Random;
use crate::{NO, YES};
use second::base64url;

const ALPHABET: &[u8] = b"ABCDEFGHIJKLMNOPQRSTUVWXYZabcdefghijklmnopqrstuvwxyz0123456789-_";

/// What is in the length before a call.
const OLD_LENGTH: u64 = 0x0123_4567_89ab_cdef;

/// Compares with an `out` that is long enough.
fn check_one(text: &[u8], padded: u32) -> bool {
    let out = [0xa5; 512];
    let len = text.len().min(out.len());
    check::base64url_decode(text, padded, &out[..len], OLD_LENGTH)
}

/// Compares as both forms.
fn check_both(text: &[u8]) {
    check_one(text, NO);
    check_one(text, YES[0]);
}

fn texts(random: &mut Random, len: usize) -> [(Vec<u8>, u32); 2] {
    let data = random.bytes(len);
    [NO, YES[0]].map(|padded| (base64url::encode(&data, padded != 0).into_bytes(), padded))
}

/// Compares all texts of three characters and then the end, and the places of
/// one in sixteen of them. Gives how many were accepted.
fn check_triples(end: &[u8], padded: u32) -> usize {
    let out = [0xa5; 8];
    let mut text = [&[0; 3], end].concat();
    let mut accepted = 0;
    for first in 0..=255 {
        for second in 0..=255 {
            for third in 0..=255 {
                text[..3].copy_from_slice(&[first, second, third]);
                let place_too =
                    (usize::from(first) + usize::from(second) + usize::from(third)) % 16 == 0;
                let done = if place_too {
                    check_one(&text, padded)
                } else {
                    check::base64url_decode_at(&text, padded, &out[..text.len()], OLD_LENGTH).0
                };
                accepted += usize::from(done);
            }
        }
    }
    accepted
}

#[test]
fn all_of_three_characters_unpadded() {
    assert_eq!(check_triples(b"", NO), 1 << 16);
}

#[test]
fn all_of_three_characters_padded() {
    assert_eq!(check_triples(b"", YES[0]), 0);
}

/// Two bytes, and one byte with two padding characters.
#[test]
fn all_of_three_characters_and_padding() {
    assert_eq!(check_triples(b"=", YES[0]), (1 << 16) + (1 << 8));
}

#[test]
fn all_of_less_than_three_characters() {
    let mut accepted = 0;
    for padded in [NO, YES[0]] {
        accepted += usize::from(check_one(b"", padded));
        for first in 0..=255 {
            accepted += usize::from(check_one(&[first], padded));
            for second in 0..=255 {
                accepted += usize::from(check_one(&[first, second], padded));
            }
        }
    }
    assert_eq!(accepted, 1 + 256 + 1);
}

/// Every change of one character.
#[test]
fn all_changes() {
    let mut random = Random::new(81);
    for len in 0..=18 {
        for (text, _) in texts(&mut random, len) {
            for place in 0..text.len() {
                let mut changed = text.clone();
                for character in 0..=255 {
                    changed[place] = character;
                    check_both(&changed);
                }
            }
        }
    }
}

/// One character more at every place.
#[test]
fn all_insertions() {
    let mut random = Random::new(82);
    for len in 0..=12 {
        for (text, _) in texts(&mut random, len) {
            for place in 0..=text.len() {
                for character in 0..=255 {
                    let mut longer = text.clone();
                    longer.insert(place, character);
                    check_both(&longer);
                }
            }
        }
    }
}

#[test]
fn cut_and_extended() {
    let mut random = Random::new(83);
    let ends: [&[u8]; 12] = [
        b"=", b"==", b"===", b"====", b"A", b"AA", b"AAA", b"AA==", b"A=", b"\n", b"\0", b" ",
    ];
    for len in 0..=40 {
        for (text, _) in texts(&mut random, len) {
            for cut in 0..=text.len() {
                check_both(&text[..cut]);
                check_both(&text[cut..]);
                for end in ends {
                    check_both(&[&text[..cut], end].concat());
                    check_both(&[end, &text[..cut]].concat());
                }
            }
        }
    }
}

#[test]
fn random_data() {
    let mut random = Random::new(84);
    for len in (0..=300).chain(0..=300) {
        for (text, padded) in texts(&mut random, len) {
            assert!(check_one(&text, padded));
            let other = if padded == NO { YES[0] } else { NO };
            assert_eq!(check_one(&text, other), len % 3 == 0);
            let place = random.below(text.len() + 1);
            let mut changed = text.clone();
            changed.splice(place..place, random.array::<1>());
            check_both(&changed);
        }
    }
    for len in [1000, 65_535, 65_536, 65_537, 100_000] {
        for (text, padded) in texts(&mut random, len) {
            let out = random.bytes(len + 5);
            assert!(check::base64url_decode(&text, padded, &out, OLD_LENGTH));
        }
    }
}

/// Characters of the alphabet only, so that length and spare bits decide.
#[test]
fn random_characters() {
    let mut random = Random::new(85);
    for len in 0..=300 {
        for _ in 0..20 {
            let mut text: Vec<_> = (0..len)
                .map(|_| ALPHABET[random.below(ALPHABET.len())])
                .collect();
            check_both(&text);
            text.resize(text.len().next_multiple_of(4), b'=');
            check_both(&text);
        }
    }
}

#[test]
fn ways_to_pad() {
    let mut random = Random::new(86);
    for len in 0..=40 {
        let [(unpadded_text, _), (padded_text, _)] = texts(&mut random, len);
        for padded in YES {
            assert!(check_one(&padded_text, padded));
            assert_eq!(check_one(&unpadded_text, padded), len % 3 == 0);
        }
    }
}

#[test]
fn all_out_sizes() {
    let mut random = Random::new(87);
    for len in (0..=60).chain([255, 256, 300]) {
        for (mut text, padded) in texts(&mut random, len) {
            for out_len in 0..=len + 10 {
                let out = random.bytes(out_len);
                let length = u64::from_ne_bytes(random.array());
                let done = check::base64url_decode(&text, padded, &out, length);
                assert_eq!(done, out_len >= len);
            }
            text.push(b'*');
            for out_len in 0..=len + 10 {
                let out = random.bytes(out_len);
                assert!(!check::base64url_decode(&text, padded, &out, OLD_LENGTH));
            }
        }
    }
}
