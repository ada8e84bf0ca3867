//! Faults of labels. A label is signed anew after a change of its texts, unless
//! its signature was wrong before.

use super::flip;
use crate::case::Case;
use crate::common::random::Random;
use crate::format::LONGEST_LABEL;
use crate::make::{self, number, set_texts, spell, string, text, texts, REQUIRED};
use second::hmac;
use second::json::{self, Text, Value};

/// The places of the texts.
const HEADER: usize = 0;
const PAYLOAD: usize = 1;

/// More than any text here is nested.
pub const DEEP: usize = 5000;

/// Characters of base64url, by their values.
const ALPHABET: &[u8; 64] = b"ABCDEFGHIJKLMNOPQRSTUVWXYZabcdefghijklmnopqrstuvwxyz0123456789-_";

pub fn alg(case: &mut Case, random: &mut Random) {
    let others = [
        "none", "HS384", "HS512", "RS256", "hs256", "Hs256", "HS25", "HS2560", "HS256 ", " HS256",
        "HS256\0", "\0HS256", "", "8",
    ];
    let other = string(others[random.below(others.len())]);
    set(case, HEADER, "alg", other, random);
}

pub fn format(case: &mut Case, random: &mut Random) {
    let others = [
        "7",
        "9",
        "0",
        "-0",
        "-8",
        "80",
        "88",
        "264",
        "65544",
        "4294967304",
        "18446744073709551624",
        "-18446744073709551608",
    ];
    let other = match random.below(others.len() + 1) {
        0 => "8".repeat(2 + random.below(400)),
        place => others[place - 1].to_string(),
    };
    set(case, PAYLOAD, "format", number(&other), random);
}

pub fn combo(case: &mut Case, random: &mut Random) {
    let others = [
        "",
        "SIV",
        "SIV_",
        "SIV_GC",
        "SIV_GCM ",
        "SIV_GCMM",
        "siv_gcm",
        "SIV_Gcm",
        "SIV-GCM",
        "SIV_GCM\0",
        "SIV_CTRMA",
        "SIV_CTRMACS",
        "siv_ctrmac",
        "SIV_CTRMAC ",
        "SIV_CTR",
        "1",
        "2",
        "SIV_GCMSIV_CTRMAC",
        "GCM",
    ];
    let other = string(others[random.below(others.len())]);
    set(case, PAYLOAD, "cipherCombo", other, random);
}

pub fn threshold(case: &mut Case, random: &mut Random) {
    let others = [
        "0",
        "-0",
        "1",
        "35",
        "221",
        "255",
        "256",
        "292",
        "-36",
        "-100",
        "-220",
        "65572",
        "4294967332",
        "4294967516",
        "18446744073709551652",
        "18446744073709551836",
    ];
    let other = match random.below(others.len() + 1) {
        0 => "1".repeat(4 + random.below(400)),
        place => others[place - 1].to_string(),
    };
    set(case, PAYLOAD, "shorteningThreshold", number(&other), random);
}

/// Other bits, another length, or the signature of something else.
pub fn signature(case: &mut Case, random: &mut Random) {
    let [raw_key, label] = &mut case.inputs[..] else {
        panic!("not what a label is opened with");
    };
    let dot = label.iter().rposition(|&byte| byte == b'.').expect("a dot");
    let signed = String::from_utf8(label[..dot].to_vec()).expect("ASCII");
    let mut signature = hmac::mac(raw_key, signed.as_bytes()).to_vec();
    match random.below(5) {
        0 => flip(&mut signature, random),
        1 => signature.truncate(random.below(32)),
        2 => {
            let more = 1 + random.below(40);
            signature.extend(random.bytes(more));
        }
        3 => {
            let mut other = raw_key.clone();
            other.rotate_left(32);
            signature = hmac::mac(&other, signed.as_bytes()).to_vec();
        }
        _ => signature = hmac::mac(raw_key, signed.replace('.', "").as_bytes()).to_vec(),
    }
    *label = make::with_signature(&signed, &signature);
}

/// Row 13, for any of its reasons.
pub fn label(case: &mut Case, random: &mut Random) {
    match random.below(10) {
        0 => too_long(case, random),
        1 => dots(&mut case.inputs[1], random),
        2 => {
            let place = random.below(case.inputs[1].len());
            case.inputs[1][place] = b"+/= \n\0\xff*~\x80"[random.below(10)];
        }
        3 => broken_segment(&mut case.inputs[1], random),
        4 => broken_text(case, random),
        5 => too_deep(case, random),
        6 => missing(case, random),
        7 => twice(case, random),
        8 => wrong_kind(case, random),
        _ => {
            let place = random.below(2);
            let mut texts = texts(&case.inputs[1]);
            texts[place] = [b"[", &texts[place][..], b"]"].concat();
            set_texts(case, [&texts[0], &texts[1]]);
        }
    }
}

fn too_long(case: &mut Case, random: &mut Random) {
    let mut texts = texts(&case.inputs[1]);
    let place = random.below(2);
    let missing = LONGEST_LABEL - case.inputs[1].len();
    let more = missing * 3 / 4 + 3 + random.below(2) * random.below(5000);
    texts[place].extend(vec![b' '; more]);
    set_texts(case, [&texts[0], &texts[1]]);
    assert!(case.inputs[1].len() > LONGEST_LABEL);
}

/// One dot less, or some more.
fn dots(label: &mut Vec<u8>, random: &mut Random) {
    if random.below(3) == 0 {
        let dots: Vec<_> = (0..label.len()).filter(|&i| label[i] == b'.').collect();
        label.remove(dots[random.below(dots.len())]);
        return;
    }
    for _ in 0..1 + random.below(3) {
        label.insert(random.below(label.len() + 1), b'.');
    }
}

/// One character too much, or spare bits that are not zero.
fn broken_segment(label: &mut Vec<u8>, random: &mut Random) {
    let mut segments: Vec<_> = label.split(|&byte| byte == b'.').map(Vec::from).collect();
    let segment = &mut segments[random.below(3)];
    let spare = match segment.len() % 4 {
        2 => 4,
        3 => 2,
        _ => 0,
    };
    if spare == 0 {
        segment.push(ALPHABET[random.below(64)]);
    } else {
        let last = segment.last_mut().expect("there are some");
        let value = ALPHABET.iter().position(|other| other == last);
        let bits = 1 + random.below((1 << spare) - 1);
        *last = ALPHABET[value.expect("base64url") | bits];
    }
    *label = segments.join(&b'.');
}

fn broken_text(case: &mut Case, random: &mut Random) {
    let strays = [
        ",", "}", "{", "]", "{}", "0", "\"", "\0", "\x0b", "\x0c", "\u{feff}", "\u{a0}", "//", "x",
    ];
    let stray = strays[random.below(strays.len())].as_bytes();
    let mut texts = texts(&case.inputs[1]);
    let old = &mut texts[random.below(2)];
    *old = match random.below(4) {
        0 => [stray, old].concat(),
        1 => [old, stray].concat(),
        2 => {
            let end = old.iter().rposition(|&byte| byte == b'}');
            old[..random.below(end.expect("an object") + 1)].to_vec()
        }
        _ => vec![],
    };
    set_texts(case, [&texts[0], &texts[1]]);
}

fn too_deep(case: &mut Case, random: &mut Random) {
    let mut value = Value::Array(vec![]);
    for _ in 0..8 + random.below(2) * random.below(30) {
        value = match random.below(2) {
            0 => Value::Array(vec![value]),
            _ => Value::Object(vec![(text("x"), value)]),
        };
    }
    let place = random.below(2);
    change(case, place, random, |members, random| {
        make::insert(members, (text("deep"), value), random);
    });
}

fn missing(case: &mut Case, random: &mut Random) {
    let (place, name) = required(random);
    change(case, place, random, |members, _| {
        members.retain(|(other, _)| !json::is(other, name));
    });
}

/// With the same value, or with any.
fn twice(case: &mut Case, random: &mut Random) {
    let (place, name) = required(random);
    change(case, place, random, |members, random| {
        let value = match random.below(2) {
            0 => member(members, name).clone(),
            _ => make::random_value(random, 2),
        };
        make::insert(members, (text(name), value), random);
    });
}

fn wrong_kind(case: &mut Case, random: &mut Random) {
    let (place, name) = required(random);
    change(case, place, random, |members, random| {
        let old = member(members, name);
        *old = match (&*old, random.below(5)) {
            (_, 0) => Value::Null,
            (_, 1) => Value::Boolean(random.below(2) == 0),
            (_, 2) => Value::Array(vec![old.clone()]),
            (_, 3) => Value::Object(vec![(text(name), old.clone())]),
            (Value::String(_), _) => number(["8", "256", "1"][random.below(3)]),
            (Value::Number(whole), _) => match random.below(4) {
                0 => number(&format!("{whole}.0")),
                1 => number(&format!("{whole}e0")),
                2 => number(&format!("{whole}E-0")),
                _ => string(whole),
            },
            (other, _) => panic!("{other:?} where none is required"),
        };
    });
}

/// A required member, and the place of its text.
fn required(random: &mut Random) -> (usize, &'static str) {
    let place = random.below(2);
    let names = REQUIRED[place];
    (place, names[random.below(names.len())])
}

/// The value of a member that is there.
fn member<'a>(members: &'a mut [(Text, Value)], name: &str) -> &'a mut Value {
    let mut members = members.iter_mut();
    let member = members.find(|(other, _)| json::is(other, name));
    &mut member.expect("a required member").1
}

/// Gives a member another value.
fn set(case: &mut Case, place: usize, name: &str, value: Value, random: &mut Random) {
    change(case, place, random, |members, _| {
        *member(members, name) = value;
    });
}

/// Changes the members of a text, which is spelled anew.
fn change(
    case: &mut Case,
    place: usize,
    random: &mut Random,
    change: impl FnOnce(&mut Vec<(Text, Value)>, &mut Random),
) {
    let mut texts = texts(&case.inputs[1]);
    let Some(Value::Object(mut members)) = json::parse(&texts[place], DEEP) else {
        panic!("not an object");
    };
    change(&mut members, random);
    texts[place] = spell(random, &Value::Object(members));
    set_texts(case, [&texts[0], &texts[1]]);
}
