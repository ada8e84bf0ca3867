//! White space, and bytes that are none.

use super::{bare, row, HEADER};
use crate::compare::Compare;
use crate::part::{Part, Run::Once};

pub const PARTS: &[Part] = &[
    ("labels: white space everywhere", Once(everywhere)),
    ("labels: every byte around the texts", Once(around)),
    ("labels: no white space", Once(none)),
    ("labels: white space inside of tokens", Once(inside)),
];

/// The tokens of the two texts, with values of every kind.
const TOKENS: [&[&str]; 2] = [
    &[
        "{",
        r#""x""#,
        ":",
        "[",
        "null",
        ",",
        "true",
        ",",
        "-1.5e+3",
        ",",
        "{",
        "}",
        ",",
        "[",
        "]",
        "]",
        ",",
        r#""alg""#,
        ":",
        r#""HS256""#,
        "}",
    ],
    &[
        "{",
        r#""format""#,
        ":",
        "8",
        ",",
        r#""cipherCombo""#,
        ":",
        r#""SIV_GCM""#,
        ",",
        r#""o""#,
        ":",
        "{",
        r#""""#,
        ":",
        "false",
        ",",
        r#""y""#,
        ":",
        "0",
        "}",
        ",",
        r#""shorteningThreshold""#,
        ":",
        "36",
        "}",
    ],
];

/// The row of the texts with this before the token at this place of this text,
/// or behind all of them.
fn with(compare: &mut Compare, text: usize, place: usize, inserted: &[u8]) -> u32 {
    let mut texts = TOKENS.map(|tokens| tokens.concat().into_bytes());
    let tokens = TOKENS[text];
    let (start, rest) = [&tokens[..place], &tokens[place..]]
        .map(|tokens| tokens.concat().into_bytes())
        .into();
    texts[text] = [start, inserted.to_vec(), rest].concat();
    row(compare, &texts[0], &texts[1])
}

fn everywhere(compare: &mut Compare) {
    for text in [0, 1] {
        for place in 0..=TOKENS[text].len() {
            for space in [" ", "\t", "\n", "\r", "\r\n", " \t\n\r ", &" ".repeat(100)] {
                assert_eq!(with(compare, text, place, space.as_bytes()), 0);
            }
        }
    }
    // At all places at once.
    for space in [" ", "\t", "\n", "\r", "\n\n\t"] {
        let texts = TOKENS.map(|tokens| format!("{space}{}{space}", tokens.join(space)));
        assert_eq!(row(compare, &texts[0], &texts[1]), 0);
    }
}

fn around(compare: &mut Compare) {
    for byte in 0..=255 {
        let right = b" \t\n\r".contains(&byte);
        for text in [0, 1] {
            for place in [0, TOKENS[text].len()] {
                let row = with(compare, text, place, &[byte]);
                assert_eq!(row, if right { 0 } else { 13 }, "{byte:x}");
            }
        }
    }
}

/// Row 13 at every place: control characters, other spaces of Unicode, the byte
/// order mark in UTF-8 and in UTF-16, comments.
fn none(compare: &mut Compare) {
    let others: [&[u8]; 20] = [
        b"\0",
        b"\x01",
        b"\x07",
        b"\x08",
        b"\x0b",
        b"\x0c",
        b"\x0e",
        b"\x1f",
        b"\x7f",
        b"\x80",
        b"\x85",
        b"\xa0",
        b"\xc2\x85",
        b"\xc2\xa0",
        b"\xe2\x80\xa8",
        b"\xe3\x80\x80",
        b"\xef\xbb\xbf",
        b"\xff\xfe",
        b"//\n",
        b"/**/",
    ];
    for other in others {
        for text in [0, 1] {
            for place in 0..=TOKENS[text].len() {
                assert_eq!(with(compare, text, place, other), 13, "{other:x?}");
                let spaced = [b" ", other, b" "].concat();
                assert_eq!(with(compare, text, place, &spaced), 13, "{other:x?}");
            }
        }
    }
    let wide = HEADER.bytes().flat_map(|byte| [byte, 0]);
    assert_eq!(row(compare, wide.collect::<Vec<_>>(), &bare()[1]), 13);
}

/// At every place between two bytes of one token. In a string a space is a
/// character, and the other three may not stand there.
fn inside(compare: &mut Compare) {
    for text in [0, 1] {
        for (place, token) in TOKENS[text].iter().enumerate() {
            for i in 1..token.len() {
                for space in [" ", "\t", "\n", "\r"] {
                    let mut tokens = TOKENS.map(strings);
                    tokens[text][place].insert_str(i, space);
                    let texts = tokens.map(|tokens| tokens.concat());
                    let row = row(compare, &texts[0], &texts[1]);
                    let expected = match *token {
                        _ if space != " " => 13,
                        r#""HS256""# => 14,
                        r#""SIV_GCM""# => 17,
                        r#""x""# | r#""""# | r#""o""# | r#""y""# => 0,
                        _ => 13,
                    };
                    assert_eq!(row, expected, "{}", texts[text]);
                }
            }
        }
    }
}

fn strings(tokens: &[&str]) -> Vec<String> {
    tokens.iter().map(ToString::to_string).collect()
}
