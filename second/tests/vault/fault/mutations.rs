//! Changes of labels without any thought. A label is signed anew after them,
//! unless its signature was wrong before.

use super::flip;
use super::labels::DEEP;
use crate::case::Case;
use crate::common::random::Random;
use crate::make::{self, set_texts, spell};
use second::base64url;
use second::json::{self, Text, Value};

/// Pieces of texts.
const PIECES: [&str; 36] = [
    "{",
    "}",
    "[",
    "]",
    ":",
    ",",
    "\"",
    "\\",
    "\\u",
    "\\u0061",
    "\\uD800",
    "\\/",
    " ",
    "\t",
    "\n",
    "\r",
    "0",
    "8",
    "-",
    "+",
    ".",
    "e",
    "E",
    "1e5",
    "null",
    "true",
    "false",
    "\"alg\":",
    "\"HS256\"",
    "\"format\":8,",
    "\"cipherCombo\":\"SIV_CTRMAC\",",
    "\"shorteningThreshold\":36,",
    "\"x\":[[[[[[[[]]]]]]]],",
    "\u{feff}",
    "\u{e9}",
    "\u{1d11e}",
];

/// Changes members or bytes of the texts. Does nothing to a label whose
/// segments are broken.
pub fn mutate(case: &mut Case, random: &mut Random) {
    let segments: Vec<_> = case.inputs[1].split(|&byte| byte == b'.').collect();
    let [header, payload, _] = segments[..] else {
        return;
    };
    let decoded = [header, payload].map(|segment| base64url::decode(segment, false));
    let [Some(header), Some(payload)] = decoded else {
        return;
    };
    let mut texts = [header, payload];
    for _ in 0..[1, 1, 1, 2, 3][random.below(5)] {
        let text = &mut texts[random.below(4).min(1)];
        match json::parse(text, DEEP) {
            Some(Value::Object(mut members)) if random.below(3) > 0 => {
                mutate_member(&mut members, random);
                *text = spell(random, &Value::Object(members));
            }
            _ => mutate_text(text, random),
        }
    }
    set_texts(case, [&texts[0], &texts[1]]);
}

/// Changes one of the members, or its value.
fn mutate_member(members: &mut Vec<(Text, Value)>, random: &mut Random) {
    if members.is_empty() {
        return;
    }
    let place = random.below(members.len());
    match random.below(12) {
        0 => drop(members.remove(place)),
        1 => {
            let copy = members[place].clone();
            make::insert(members, copy, random);
        }
        2 => members[place].1 = make::random_value(random, 9),
        3 => mutate_string(&mut members[place].0, random),
        _ => mutate_value(&mut members[place].1, random),
    }
}

/// Changes a character of a number or of a string.
fn mutate_value(value: &mut Value, random: &mut Random) {
    match value {
        Value::Number(written) => {
            let place = random.below(written.len() + 1);
            let mark =
                char::from(b"0123456789012345678901234567890123456789-.eE+"[random.below(45)]);
            match random.below(3) {
                0 if place < written.len() => drop(written.remove(place)),
                1 if place < written.len() => {
                    written.replace_range(place..=place, &mark.to_string());
                }
                _ => written.insert(place, mark),
            }
        }
        Value::String(text) => mutate_string(text, random),
        other => *other = make::random_value(random, 3),
    }
}

fn mutate_string(text: &mut Text, random: &mut Random) {
    let place = random.below(text.len() + 1);
    match random.below(3) {
        0 if place < text.len() => drop(text.remove(place)),
        1 if place < text.len() => text[place] ^= 1 << random.below(16),
        _ => text.insert(place, random.below(0x80) as u32),
    }
}

fn mutate_text(text: &mut Vec<u8>, random: &mut Random) {
    let len = text.len();
    let from = random.below(len + 1);
    let to = (from + random.below(20)).min(len);
    match random.below(7) {
        0 if len > 0 => flip(text, random),
        1 => drop(text.drain(from..to)),
        2 if from < len => drop(text.remove(from)),
        3 => {
            let copy = text[from..to].to_vec();
            let place = random.below(len + 1);
            text.splice(place..place, copy);
        }
        4 if from < len => text[from] = random.word() as u8,
        _ => {
            let piece = PIECES[random.below(PIECES.len())].bytes();
            text.splice(from..from, piece);
        }
    }
}
