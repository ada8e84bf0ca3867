//! Stored and full names mangled at every place.

use crate::compare::Compare;
use crate::format::{LONGEST_FULL_NAME, LONGEST_NAME};
use crate::make::{self, full_name, text_of, with_text};
use crate::part::{Part, Run::Each};
use second::vault::Combo;

pub const PARTS: &[Part] = &[
    (
        "texts: every character at every place",
        Each(every_character),
    ),
    (
        "texts: some characters of long names",
        Each(some_characters),
    ),
    ("texts: cut, shorter and longer", Each(lengths)),
    ("texts: every decoded length", Each(decoded_lengths)),
    ("texts: around the longest full name", Each(longest_texts)),
    ("texts: padding and spare bits", Each(last_group)),
    ("texts: every character of the hash name", Each(hash_names)),
];

/// Three names, so that the last group has each number of characters. With
/// another character in the place of a pad the name is longer, and may have no
/// room.
fn every_character(compare: &mut Compare, combo: Combo) {
    for len in [1, 2, 3] {
        let case = make::open_name(&mut compare.random, combo, len);
        let right = text_of(&case);
        for place in 0..right.len() {
            let pad = right[place] == b'=';
            for character in 0..=255 {
                let mut text = right.clone();
                text[place] = character;
                let same = text == right;
                let row = compare.row(&with_text(&case, text));
                assert!(matches!((same, row), (true, 0) | (false, 5 | 12)) || row == 7 && pad);
            }
        }
    }
}

fn some_characters(compare: &mut Compare, combo: Combo) {
    let plain = make::open_name(&mut compare.random, combo, 146);
    let long = [147, 148, 149, 255, 1018, 1019, 1020]
        .map(|len| make::open_long_name(&mut compare.random, combo, len));
    for case in [plain].into_iter().chain(long) {
        let right = text_of(&case);
        for place in 0..right.len() {
            let pad = right[place] == b'=';
            for character in *b"AB_-=.+\xe1" {
                let mut text = right.clone();
                text[place] = character;
                let same = text == right;
                let row = compare.row(&with_text(&case, text));
                assert!(matches!((same, row), (true, 0) | (false, 5 | 12)) || row == 7 && pad);
            }
        }
    }
}

fn lengths(compare: &mut Compare, combo: Combo) {
    let plain = [1, 2, 3, 144].map(|len| make::open_name(&mut compare.random, combo, len));
    let long = [147, 148, 255, 1018, 1019, 1020]
        .map(|len| make::open_long_name(&mut compare.random, combo, len));
    for case in plain.into_iter().chain(long) {
        let right = text_of(&case);
        for place in 0..=right.len() {
            let (start, end) = right.split_at(place);
            let rest = end.get(1..).unwrap_or(&[]);
            for inserted in [&b"A"[..], b"=", b"AAAA", b".c9r", b"\n", b"\0"] {
                let row = compare.row(&with_text(&case, [start, inserted, end].concat()));
                assert!(row == 5 || inserted == b"AAAA" && matches!(row, 7 | 12));
            }
            let same = right.len() == place;
            let row = compare.row(&with_text(&case, start.to_vec()));
            assert_eq!(row, if same { 0 } else { 5 });
            let row = compare.row(&with_text(&case, [start, rest].concat()));
            assert_eq!(row, if same { 0 } else { 5 });
            compare.end(&with_text(&case, [start, b".c9r"].concat()));
        }
    }
}

/// Only 17 to 1,036 bytes are a sealed name.
fn decoded_lengths(compare: &mut Compare, combo: Combo) {
    let mut plain = make::open_name(&mut compare.random, combo, 1);
    let mut long = make::open_long_name(&mut compare.random, combo, LONGEST_NAME);
    plain.buffers[0] = compare.random.bytes(1200);
    long.buffers[0] = compare.random.bytes(1200);
    for len in 0..1200 {
        let text = full_name(&compare.random.bytes(len));
        let row = compare.row(&with_text(&plain, text.clone()));
        assert_eq!(row, if (17..=162).contains(&len) { 12 } else { 5 });
        let row = compare.row(&with_text(&long, text));
        match len {
            17..=162 => assert_eq!(row, 11),
            163..=1036 => assert_eq!(row, 12),
            _ => assert_eq!(row, 5),
        }
    }
}

/// Every number of characters around 1,388, which the longest full name has,
/// and there every padding. Of 1,388 characters only a text with two pads is
/// short enough: with one it stands for 1,037 bytes, with none for 1,038.
fn longest_texts(compare: &mut Compare, combo: Combo) {
    let mut case = make::open_long_name(&mut compare.random, combo, LONGEST_NAME);
    case.buffers[0] = compare.random.bytes(1200);
    for len in LONGEST_FULL_NAME - 20..=LONGEST_FULL_NAME + 20 {
        for pads in 0..4 {
            let text = ["A".repeat(len - 4 - pads), "=".repeat(pads)].concat() + ".c9r";
            let bytes = len / 4 * 3 - 3 - pads;
            let right = len % 4 == 0 && pads < 3 && bytes <= 1036;
            let row = compare.row(&with_text(&case, text.into_bytes()));
            assert_eq!(row, if right { 12 } else { 5 });
        }
    }
}

/// All pairs of characters at the end of the text.
fn last_group(compare: &mut Compare, combo: Combo) {
    let alphabet = b"ABCDEFGHIJKLMNOPQRSTUVWXYZabcdefghijklmnopqrstuvwxyz0123456789-_=+/.";
    for len in [1, 2, 3] {
        let case = make::open_name(&mut compare.random, combo, len);
        let right = text_of(&case);
        let end = right.len() - 4;
        for place in [end - 3, end - 2] {
            for &one in alphabet {
                for &other in alphabet {
                    let mut text = right.clone();
                    text[place] = one;
                    text[place + 1] = other;
                    let same = text == right;
                    let row = compare.row(&with_text(&case, text));
                    assert!(matches!((same, row), (true, 0) | (false, 5 | 7 | 12)));
                }
            }
        }
    }
}

fn hash_names(compare: &mut Compare, combo: Combo) {
    let case = make::open_long_name(&mut compare.random, combo, 200);
    for place in 0..32 {
        for character in 0..=255 {
            let mut other = case.clone();
            other.inputs[2][place] = character;
            let same = other.inputs[2] == case.inputs[2];
            assert_eq!(compare.row(&other), if same { 0 } else { 11 });
        }
    }
    for len in 0..70 {
        let mut other = case.clone();
        other.inputs[2].resize(len, b'A');
        assert_eq!(compare.row(&other), if len == 32 { 0 } else { 11 });
    }
    // The full name itself is not its stored name.
    let mut other = case.clone();
    other.inputs[2] = case.inputs[3].clone();
    assert_eq!(compare.row(&other), 11);
}
