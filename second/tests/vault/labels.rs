//! Labels.

mod broken;
mod escapes;
mod hostile;
mod kinds;
mod members;
mod mutations;
mod nesting;
mod numbers;
mod segments;
mod signatures;
mod sizes;
mod spaces;
mod strings;

use crate::case::Case;
use crate::common::labels::{label, HEADER, PAYLOAD};
use crate::compare::Compare;
use crate::format::{self, RAW_KEY};
use crate::make;
use crate::part::Part;
use second::vault::Combo;

pub const PARTS: [&[Part]; 13] = [
    members::PARTS,
    kinds::PARTS,
    escapes::PARTS,
    nesting::PARTS,
    spaces::PARTS,
    numbers::PARTS,
    strings::PARTS,
    segments::PARTS,
    broken::PARTS,
    signatures::PARTS,
    sizes::PARTS,
    hostile::PARTS,
    mutations::PARTS,
];

/// The members that are required, as they are written.
const ALG: &str = r#""alg":"HS256""#;
const FORMAT: &str = r#""format":8"#;
const COMBO: &str = r#""cipherCombo":"SIV_GCM""#;
const THRESHOLD: &str = r#""shorteningThreshold":220"#;

/// Both texts with no other members.
fn bare() -> [String; 2] {
    [object(&[ALG]), object(&[FORMAT, COMBO, THRESHOLD])]
}

/// The text of these members.
fn object<S: AsRef<str>>(members: &[S]) -> String {
    let members: Vec<_> = members.iter().map(AsRef::as_ref).collect();
    format!("{{{}}}", members.join(","))
}

/// The row of the label of these texts, signed under a random key.
fn row(compare: &mut Compare, header: impl AsRef<[u8]>, payload: impl AsRef<[u8]>) -> u32 {
    let raw_key = compare.random.bytes(RAW_KEY);
    let signed = label(&raw_key, [header.as_ref(), payload.as_ref()]);
    compare.row(&make::open_label_of(&raw_key, signed))
}

/// Fails unless the label of these texts has this combo and this threshold.
fn opens(compare: &mut Compare, header: &str, payload: &str, combo: Combo, threshold: u64) {
    let raw_key = compare.random.bytes(RAW_KEY);
    let signed = label(&raw_key, [header.as_bytes(), payload.as_bytes()]);
    let end = compare.end(&make::open_label_of(&raw_key, signed));
    let number = u64::from(combo.number());
    assert_eq!((end.row, end.length, end.other), (0, number, threshold));
}

/// The row of the texts with a member in front of or behind the others of the
/// text at this place.
fn with_member(compare: &mut Compare, place: usize, member: impl AsRef<[u8]>) -> u32 {
    let member = member.as_ref();
    let mut texts = bare().map(String::into_bytes);
    texts[place] = match compare.random.below(2) {
        0 => [b"{", member, b",", &texts[place][1..]].concat(),
        _ => {
            let inside = &texts[place][..texts[place].len() - 1];
            [inside, b",", member, b"}"].concat()
        }
    };
    row(compare, &texts[0], &texts[1])
}

/// The payload with these values, as they are written.
fn payload(format: &str, combo: &str, threshold: &str) -> String {
    object(&[
        format!(r#""format":{format}"#),
        format!(r#""cipherCombo":{combo}"#),
        format!(r#""shorteningThreshold":{threshold}"#),
    ])
}

/// The name of a combo, as a string.
fn combo_string(combo: Combo) -> String {
    format!("\"{}\"", format::name(combo))
}

/// The label of a usual header and a usual payload.
fn usual(compare: &mut Compare) -> Case {
    let raw_key = compare.random.bytes(RAW_KEY);
    let signed = label(&raw_key, [HEADER.as_bytes(), PAYLOAD.as_bytes()]);
    make::open_label_of(&raw_key, signed)
}

/// The row of the case with another label.
fn with(compare: &mut Compare, case: &Case, label: impl Into<Vec<u8>>) -> u32 {
    compare.row(&make::open_label_of(&case.inputs[0], label.into()))
}

/// The three segments.
fn segments(case: &Case) -> [String; 3] {
    let text = String::from_utf8(case.inputs[1].clone()).expect("ASCII");
    let segments: Vec<_> = text.split('.').map(String::from).collect();
    segments.try_into().expect("three")
}
