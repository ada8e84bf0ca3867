//! Labels.

use super::json::{number, random_string, random_value, spell, string, text};
use super::threshold;
use crate::case::{Call, Case};
use crate::common::labels::label;
use crate::common::random::Random;
use crate::format::{self, LONGEST_LABEL, RAW_KEY};
use second::json::{Text, Value};
use second::vault::Combo;
use second::{base64url, hmac};

/// The members that the header must have, and those of the payload.
pub const REQUIRED: [&[&str]; 2] = [&["alg"], &["format", "cipherCombo", "shorteningThreshold"]];

/// Names that no text must have, in this spelling at this place.
const UNKNOWN: [[&str; 8]; 2] = [
    [
        "kid",
        "typ",
        "Alg",
        "algo",
        "",
        "format",
        "cipherCombo",
        "shorteningThreshold",
    ],
    [
        "jti",
        "alg",
        "Format",
        "formats",
        "",
        "ciphercombo",
        "cipherCombo ",
        "shorteningThreshold\0",
    ],
];

/// How deep unknown members are nested at most.
const DEPTH: usize = 8;

type Members = Vec<(Text, Value)>;

/// What is signed, with this signature.
pub fn with_signature(signed: &str, signature: &[u8]) -> Vec<u8> {
    format!("{signed}.{}", base64url::encode(signature, false)).into_bytes()
}

/// The call that opens this label.
pub fn open_label_of(raw_key: &[u8], label: Vec<u8>) -> Case {
    Case {
        call: Call::OpenLabel,
        inputs: vec![raw_key.to_vec(), label],
        numbers: vec![],
        buffers: vec![],
    }
}

/// A label with a random threshold and with random unknown members, spelled at
/// random.
pub fn open_label(random: &mut Random, combo: Combo) -> Case {
    let raw_key = random.bytes(RAW_KEY);
    loop {
        let texts = members(random, combo).map(|members| spell(random, &Value::Object(members)));
        let label = label(&raw_key, [&texts[0], &texts[1]]);
        if label.len() <= LONGEST_LABEL {
            return open_label_of(&raw_key, label);
        }
    }
}

/// The members of the header and of the payload.
fn members(random: &mut Random, combo: Combo) -> [Members; 2] {
    let threshold = threshold(random).to_string();
    let required = [
        vec![string("HS256")],
        vec![number("8"), string(format::name(combo)), number(&threshold)],
    ];
    let mut place = 0;
    required.map(|values| {
        let names = REQUIRED[place].iter().map(|name| text(name));
        let mut members: Members = names.zip(values).collect();
        for _ in 0..random.below(4) {
            let unknown = unknown(random, place);
            insert(&mut members, unknown, random);
        }
        place += 1;
        members
    })
}

/// An unknown member of the text at this place.
fn unknown(random: &mut Random, place: usize) -> (Text, Value) {
    let name = match random.below(3) {
        0 => random_string(random),
        _ => text(UNKNOWN[place][random.below(8)]),
    };
    let depth = [1, DEPTH][random.below(2)];
    (name, random_value(random, depth))
}

/// Puts a member at any place.
pub fn insert(members: &mut Members, member: (Text, Value), random: &mut Random) {
    let place = random.below(members.len() + 1);
    members.insert(place, member);
}

/// The two texts of a label whose segments are base64url.
pub fn texts(label: &[u8]) -> [Vec<u8>; 2] {
    let mut segments = label.split(|&byte| byte == b'.');
    [(); 2].map(|()| {
        let segment = segments.next().expect("a segment");
        base64url::decode(segment, false).expect("a text")
    })
}

/// Puts other texts into a label. It is signed anew if its signature was right.
pub fn set_texts(case: &mut Case, texts: [&[u8]; 2]) {
    let [raw_key, old] = &case.inputs[..] else {
        panic!("not what a label is opened with");
    };
    let dot = old.iter().rposition(|&byte| byte == b'.');
    let (before, signature) = old.split_at(dot.expect("a dot"));
    let was_right = base64url::encode(&hmac::mac(raw_key, before), false);
    let is_right = signature[1..] == *was_right.as_bytes();
    let new = label(raw_key, texts);
    case.inputs[1] = if is_right {
        new
    } else {
        let dot = new.iter().rposition(|&byte| byte == b'.');
        [&new[..dot.expect("a dot")], signature].concat()
    };
}
