//! The longest label, and longer ones.

use super::{object, row, ALG, COMBO, FORMAT, HEADER, PAYLOAD, THRESHOLD};
use crate::common::labels;
use crate::compare::Compare;
use crate::format::{LONGEST_LABEL, RAW_KEY};
use crate::make;
use crate::part::{Part, Run::Once};

pub const PARTS: &[Part] = &[
    ("labels: lengths around the longest", Once(around)),
    ("labels: much longer ones", Once(longer)),
    ("labels: long members of every kind", Once(long_members)),
];

/// The dots and the signature.
const BEHIND: usize = 1 + 1 + 43;

/// How many bytes a segment of this many characters has, if there is one.
fn bytes(characters: usize) -> Option<usize> {
    (characters % 4 != 1).then_some(characters / 4 * 3 + (characters % 4).saturating_sub(1))
}

/// A label of this length, with white space in both texts. The header gets as
/// much as is asked for, or a few bytes more.
fn padded(raw_key: &[u8], len: usize, header: usize) -> Vec<u8> {
    let headers = HEADER.len() + header..;
    let fits = headers.filter_map(|header| {
        let characters = (header * 4).div_ceil(3);
        let payload = bytes(len - BEHIND - characters)?;
        Some([header, payload])
    });
    let [header, payload] = fits.into_iter().next().expect("one of four fits");
    let header = format!("{HEADER}{}", " ".repeat(header - HEADER.len()));
    let payload = format!("{}{PAYLOAD}", "\n".repeat(payload - PAYLOAD.len()));
    labels::label(raw_key, [header.as_bytes(), payload.as_bytes()])
}

fn around(compare: &mut Compare) {
    for len in LONGEST_LABEL - 60..=LONGEST_LABEL + 60 {
        for header in [0, 1, 2, 500, 1000, 2000, 2700] {
            let raw_key = compare.random.bytes(RAW_KEY);
            let label = padded(&raw_key, len, header);
            assert_eq!(label.len(), len);
            let row = compare.row(&make::open_label_of(&raw_key, label));
            assert_eq!(row, if len <= LONGEST_LABEL { 0 } else { 13 }, "{len}");
        }
    }
}

/// Among them are those that are short in their last bits.
fn longer(compare: &mut Compare) {
    let raw_key = compare.random.bytes(RAW_KEY);
    for len in [
        5000,
        8192,
        8192 + 300,
        16_384,
        65_535,
        65_536,
        65_537,
        65_536 + 400,
        65_536 + 4096,
        131_072,
        1 << 20,
    ] {
        let label = padded(&raw_key, len, 0);
        assert_eq!(label.len(), len);
        assert_eq!(compare.row(&make::open_label_of(&raw_key, label)), 13);
    }
    for byte in *b".A[\"\0" {
        for len in [4096, 4097, 5000, 65_536, 1 << 20] {
            let label = vec![byte; len];
            assert_eq!(compare.row(&make::open_label_of(&raw_key, label)), 13);
        }
    }
    // A right label with bytes behind it up to and over the limit.
    let right = labels::label(&raw_key, [HEADER.as_bytes(), PAYLOAD.as_bytes()]);
    for len in [4095, 4096, 4097] {
        let mut label = right.clone();
        label.resize(len, b'A');
        let row = compare.row(&make::open_label_of(&raw_key, label));
        assert!(row == 13 || row == 15 && len <= LONGEST_LABEL, "{len}");
    }
}

/// One member fills the label.
fn long_members(compare: &mut Compare) {
    let long = 2800;
    let digits = "7".repeat(long);
    let letters = "x".repeat(long);
    for member in [
        format!(r#""{letters}":0"#),
        format!(r#""x":"{letters}""#),
        format!(r#""x":{digits}"#),
        format!(r#""x":-{digits}"#),
        format!(r#""x":0.{digits}"#),
        format!(r#""x":1e{digits}"#),
        format!(r#""x":"{}""#, r"\u0061".repeat(long / 6)),
        format!(r#""x":"{}""#, r"\n".repeat(long / 2)),
        format!(r#""x":"{}""#, "\u{1d11e}".repeat(long / 4)),
        format!(r#""x":[{}0]"#, "0,".repeat(long / 2)),
        format!(r#""x":[{}[]]"#, "[],".repeat(long / 3)),
        format!(r#""x":[{}{{}}]"#, "{},".repeat(long / 3)),
        format!(r#""x":{{{}"":0}}"#, r#""":0,"#.repeat(long / 5)),
        format!(r#"{}"x":0"#, r#""":0,"#.repeat(long / 5)),
        format!(r#"{}"x":0"#, r#""alg":{},"#.repeat(long / 9)),
    ] {
        long_member(compare, &member);
    }
}

/// In each text before and behind the others. Something wrong behind it is found.
fn long_member(compare: &mut Compare, member: &str) {
    let header = object(&[ALG]);
    let mut of_payload = |payload: String| row(compare, &header, payload);
    assert_eq!(of_payload(object(&[member, FORMAT, COMBO, THRESHOLD])), 0);
    let last = object(&[FORMAT, COMBO, THRESHOLD, member]);
    assert_eq!(of_payload(last.clone()), 0);
    assert_eq!(of_payload(last + ","), 13);
    let twice = object(&[FORMAT, COMBO, THRESHOLD, member, FORMAT]);
    assert_eq!(of_payload(twice), 13);

    let payload = object(&[FORMAT, COMBO, THRESHOLD]);
    let mut of_header = |header: String| row(compare, header, &payload);
    let expected = if member.contains(r#""alg":"#) { 13 } else { 0 };
    assert_eq!(of_header(object(&[member, ALG])), expected);
    assert_eq!(of_header(object(&[ALG, member])), expected);
    assert_eq!(of_header(object(&[ALG, member, ALG])), 13);
}
