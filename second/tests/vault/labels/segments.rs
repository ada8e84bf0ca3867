//! Segments: their characters, dots, spare bits and padding.

use super::{bare, segments, usual, with};
use crate::common::labels::{self, HEADER, PAYLOAD};
use crate::compare::Compare;
use crate::part::{Part, Run::Once};
use second::base64url;

/// The characters of base64url, by their values.
const ALPHABET: &[u8; 64] = b"ABCDEFGHIJKLMNOPQRSTUVWXYZabcdefghijklmnopqrstuvwxyz0123456789-_";

pub const PARTS: &[Part] = &[
    ("labels: every byte at every place", Once(every_byte)),
    ("labels: cut and made longer", Once(cuts)),
    ("labels: bytes left out, and put in", Once(inserted)),
    ("labels: dots", Once(dots)),
    ("labels: empty and exchanged segments", Once(empty)),
    ("labels: spare bits and padding", Once(spare_bits)),
    (
        "labels: spare bits of the signature",
        Once(spare_bits_of_signature),
    ),
];

/// With another algorithm the row is 14. All else is found by the signature, if
/// it is a label at all.
fn every_byte(compare: &mut Compare) {
    let case = usual(compare);
    let right = &case.inputs[1];
    let in_alphabet = |byte: u8| byte.is_ascii_alphanumeric() || b"-_".contains(&byte);
    for place in 0..right.len() {
        for byte in 0..=255 {
            let mut label = right.clone();
            label[place] = byte;
            let same = label == *right;
            let row = with(compare, &case, label);
            match row {
                0 => assert!(same),
                13 => {}
                14 | 15 => assert!(!same && in_alphabet(byte)),
                _ => panic!("row {row}"),
            }
        }
    }
}

fn cuts(compare: &mut Compare) {
    let case = usual(compare);
    let right = &case.inputs[1];
    let last_dot = right.len() - 44;
    for len in 0..right.len() {
        let row = with(compare, &case, &right[..len]);
        assert!(matches!(row, 13 | 15), "{len}: {row}");
        assert!(row == 13 || len > last_dot, "{len}");
        assert!(row == 15 || len != last_dot + 1, "{len}");
        let row = with(compare, &case, &right[right.len() - len..]);
        assert_eq!(row, 13);
    }
    for more in [
        "A", "AA", "AAA", "AAAA", "-", "_", "=", "==", ".", "..", ".AA", "+", "/", " ", "\n",
        "\r\n", "\0", "\u{80}", "\u{feff}",
    ] {
        // One character more makes the last group whole, and two are too few for
        // the next one.
        let fits = matches!(more, "A" | "AAA" | "AAAA" | "-" | "_");
        let row = with(compare, &case, [right, more.as_bytes()].concat());
        assert_eq!(row, if fits { 15 } else { 13 }, "{more:?}");
        let row = with(compare, &case, [more.as_bytes(), right].concat());
        assert_eq!(row, 13, "{more:?}");
    }
}

fn inserted(compare: &mut Compare) {
    let case = usual(compare);
    let right = &case.inputs[1];
    for place in 0..=right.len() {
        let (start, rest) = right.split_at(place);
        for more in *b"A9-_.=+/ \n\0~\x80\xff" {
            let row = with(compare, &case, [start, &[more], rest].concat());
            assert!(matches!(row, 13..=15), "{place} {more:x}: {row}");
            if !(more.is_ascii_alphanumeric() || b"-_".contains(&more)) {
                assert_eq!(row, 13);
            }
        }
        if let Some(rest) = rest.get(1..) {
            let row = with(compare, &case, [start, rest].concat());
            assert!(matches!(row, 13..=15), "{place}: {row}");
        }
    }
}

fn dots(compare: &mut Compare) {
    let case = usual(compare);
    let [header, payload, signature] = segments(&case);
    for count in (0..=5).chain([100, 4094, 4095, 4096]) {
        let row = with(compare, &case, vec![b'.'; count]);
        assert_eq!(row, 13);
    }
    for label in [
        String::new(),
        header.clone(),
        format!("{header}{payload}{signature}"),
        format!("{header}.{payload}"),
        format!("{header}.{payload}{signature}"),
        format!("{header}.{payload}.{signature}."),
        format!(".{header}.{payload}.{signature}"),
        format!("{header}..{payload}.{signature}"),
        format!("{header}.{payload}..{signature}"),
        format!("{header}.{payload}.{signature}.{signature}"),
        format!("{header}.{payload}.{signature}..."),
        format!(".{payload}.{signature}"),
        format!("{header}..{signature}"),
        format!("..{signature}"),
        format!("{header}.."),
        format!(".{payload}."),
        format!("{payload}.{header}.{signature}"),
        format!("{signature}.{payload}.{header}"),
        format!("{header},{payload},{signature}"),
        HEADER.to_string(),
        format!("{HEADER}.{PAYLOAD}.{signature}"),
    ] {
        assert_eq!(with(compare, &case, label), 13);
    }
    assert_eq!(with(compare, &case, format!("{header}.{payload}.")), 15);
}

/// Empty segments and exchanged ones, signed.
fn empty(compare: &mut Compare) {
    let case = usual(compare);
    let raw_key = &case.inputs[0];
    for (texts, row) in [
        (["", ""], 13),
        ([HEADER, ""], 13),
        (["", PAYLOAD], 13),
        ([PAYLOAD, HEADER], 13),
        ([HEADER, PAYLOAD], 0),
    ] {
        let label = labels::label(raw_key, texts.map(str::as_bytes));
        assert_eq!(with(compare, &case, label), row);
    }
}

/// Each last character of each segment, and each padding, signed anew. White
/// space behind the texts brings the segments to each of their lengths.
fn spare_bits(compare: &mut Compare) {
    let case = usual(compare);
    let raw_key = case.inputs[0].clone();
    for spaces in 0..3 {
        let texts = bare().map(|text| text + &" ".repeat(spaces));
        let segments = texts.map(|text| base64url::encode(text.as_bytes(), false));
        for place in [0, 1] {
            let spare = [1, 0, 16, 4][segments[place].len() % 4];
            for (value, &last) in ALPHABET.iter().enumerate() {
                let mut changed = segments.clone();
                changed[place].pop();
                changed[place].push(char::from(last));
                let label = labels::signed(&raw_key, &changed.join("."));
                let row = with(compare, &case, label);
                assert!(changed != segments || row == 0);
                assert!(value % spare == 0 || row == 13);
            }
            for padding in ["=", "==", "===", "====", "A", "%3D", "\n", " "] {
                let mut changed = segments.clone();
                changed[place] += padding;
                let label = labels::signed(&raw_key, &changed.join("."));
                assert_eq!(with(compare, &case, label), 13, "{padding}");
            }
        }
    }
}

/// Two spare bits.
fn spare_bits_of_signature(compare: &mut Compare) {
    let case = usual(compare);
    let right = case.inputs[1].clone();
    let (last, start) = right.split_last().expect("a signature");
    let value = ALPHABET.iter().position(|other| other == last);
    let value = value.expect("base64url");
    assert_eq!(value % 4, 0);
    for (other, &character) in ALPHABET.iter().enumerate() {
        let label = [start, &[character]].concat();
        let expected = match other {
            _ if other == value => 0,
            _ if other % 4 == 0 => 15,
            _ => 13,
        };
        assert_eq!(with(compare, &case, label), expected);
    }
}
