//! What may stand in a string: control characters, and UTF-8.

use super::{bare, row, with_member};
use crate::common::text::random_text;
use crate::compare::Compare;
use crate::part::{Part, Run::Once};

pub const PARTS: &[Part] = &[
    (
        "labels: every byte and two bytes in a string",
        Once(one_and_two),
    ),
    ("labels: three and four bytes in a string", Once(more)),
    ("labels: bytes in names that are looked at", Once(names)),
    ("labels: random strings", Once(random)),
];

/// Whether these bytes, none of which ends the string or escapes, may stand in
/// it.
fn is_right(bytes: &[u8]) -> bool {
    std::str::from_utf8(bytes).is_ok() && bytes.iter().all(|&byte| byte >= 0x20)
}

/// The bytes as a string and as a name.
fn both(compare: &mut Compare, bytes: &[u8]) {
    if bytes.contains(&b'"') || bytes.contains(&b'\\') {
        return;
    }
    let expected = if is_right(bytes) { 0 } else { 13 };
    let value = [br#""x":""#, bytes, b"\""].concat();
    assert_eq!(with_member(compare, 1, value), expected, "{bytes:x?}");
    let name = [b"\"", bytes, br#"":0"#].concat();
    assert_eq!(with_member(compare, 0, name), expected, "{bytes:x?}");
}

fn one_and_two(compare: &mut Compare) {
    for one in 0..=255 {
        both(compare, &[one]);
        both(compare, &[b'a', one, b'b']);
        // Two that are both ASCII say no more than one.
        for two in if one < 0x80 { 0x80..=0xff } else { 0..=0xff } {
            both(compare, &[one, two]);
        }
    }
}

fn more(compare: &mut Compare) {
    let edges = [
        0x00, 0x1f, 0x20, 0x7f, 0x80, 0x8f, 0x90, 0x9f, 0xa0, 0xbf, 0xc0, 0xff,
    ];
    let leads = [
        0xe0, 0xe1, 0xec, 0xed, 0xee, 0xef, 0xf0, 0xf1, 0xf3, 0xf4, 0xf5, 0xf8, 0xfc, 0xff,
    ];
    for lead in leads {
        for second in edges {
            for third in edges {
                both(compare, &[lead, second, third]);
                for fourth in [0x20, 0x7f, 0x80, 0xbf, 0xc0] {
                    both(compare, &[lead, second, third, fourth]);
                }
            }
        }
    }
    for number in 0xd7f0..0xe010u32 {
        let tails = [(number >> 6) as u8 & 0x3f, number as u8 & 0x3f].map(|tail| 0x80 | tail);
        both(compare, &[0xe0 | (number >> 12) as u8, tails[0], tails[1]]);
    }
}

/// The strings that are looked at, and the row of any other in their place.
const LOOKED_AT: [(&str, u32); 6] = [
    ("alg", 13),
    ("HS256", 14),
    ("format", 13),
    ("cipherCombo", 13),
    ("SIV_GCM", 17),
    ("shorteningThreshold", 13),
];

/// Before, inside of and behind each of them.
fn names(compare: &mut Compare) {
    for (string, row_of_other) in LOOKED_AT {
        for i in 0..=string.len() {
            let (start, rest) = string.as_bytes().split_at(i);
            for bytes in [
                &b"\0"[..],
                b"\x1f",
                b"\x7f",
                b"\x80",
                b"\xc3",
                b"\xc3\xa9",
                b"\xc1\xa1",
                b"\xed\xa0\x80",
                b"\xef\xbb\xbf",
                b"\xf0\x9d\x84\x9e",
                b"\xf4\x90\x80\x80",
                b"\xff",
            ] {
                let other = [start, bytes, rest].concat();
                let texts = bare().map(|text| replaced(&text, string, &other));
                let expected = if is_right(bytes) { row_of_other } else { 13 };
                let row = row(compare, &texts[0], &texts[1]);
                assert_eq!(row, expected, "{string} {bytes:x?}");
            }
        }
    }
}

/// The text with other bytes in a string, where it has it.
fn replaced(text: &str, string: &str, other: &[u8]) -> Vec<u8> {
    match text.split_once(&format!(r#""{string}""#)) {
        Some((start, end)) => [start.as_bytes(), b"\"", other, b"\"", end.as_bytes()].concat(),
        None => text.as_bytes().to_vec(),
    }
}

/// Text, and text with one byte changed.
fn random(compare: &mut Compare) {
    for _ in 0..3000 {
        let len = compare.random.below(30);
        let mut text = random_text(&mut compare.random, len);
        both(compare, &text);
        if len > 0 {
            let place = compare.random.below(len);
            text[place] = compare.random.word() as u8;
            both(compare, &text);
        }
    }
}
