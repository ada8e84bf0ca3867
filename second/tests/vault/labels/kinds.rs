//! Every kind of value in every place.

use super::{bare, object, payload, row, with_member};
use crate::compare::Compare;
use crate::part::{Part, Run::Once};

pub const PARTS: &[Part] = &[
    ("labels: every kind of value", Once(every_kind)),
    ("labels: strings in place of each other", Once(strings)),
    ("labels: texts that are no objects", Once(no_objects)),
    ("labels: not the grammar", Once(not_the_grammar)),
];

/// A value, as a JSON text has it.
#[derive(Clone, Copy, PartialEq)]
enum Kind {
    Whole,
    String,
    Other,
    /// No value at all.
    None,
}

const VALUES: [(&str, Kind); 60] = [
    ("8", Kind::Whole),
    ("0", Kind::Whole),
    ("-0", Kind::Whole),
    ("-1", Kind::Whole),
    ("100", Kind::Whole),
    ("99999999999999999999999999", Kind::Whole),
    (r#""""#, Kind::String),
    (r#""8""#, Kind::String),
    (r#""220""#, Kind::String),
    (r#""HS256""#, Kind::String),
    (r#""SIV_GCM""#, Kind::String),
    (r#""SIV_CTRMAC""#, Kind::String),
    (r#""\u0038""#, Kind::String),
    (r#""null""#, Kind::String),
    (r#""[]{},:""#, Kind::String),
    ("8.0", Kind::Other),
    ("8e0", Kind::Other),
    ("8E+0", Kind::Other),
    ("80e-1", Kind::Other),
    ("-8.5E-10", Kind::Other),
    ("0.0", Kind::Other),
    ("0e0", Kind::Other),
    ("null", Kind::Other),
    ("true", Kind::Other),
    ("false", Kind::Other),
    ("[]", Kind::Other),
    ("[8]", Kind::Other),
    (r#"["HS256"]"#, Kind::Other),
    ("[[],[],{}]", Kind::Other),
    ("{}", Kind::Other),
    (r#"{"alg":"HS256"}"#, Kind::Other),
    (r#"{"":8,"":8}"#, Kind::Other),
    ("", Kind::None),
    ("Null", Kind::None),
    ("nul", Kind::None),
    ("nulll", Kind::None),
    ("True", Kind::None),
    ("FALSE", Kind::None),
    ("t", Kind::None),
    ("undefined", Kind::None),
    ("NaN", Kind::None),
    ("Infinity", Kind::None),
    ("-Infinity", Kind::None),
    ("'HS256'", Kind::None),
    ("HS256", Kind::None),
    ("[", Kind::None),
    ("]", Kind::None),
    ("[8", Kind::None),
    ("[8,]", Kind::None),
    ("[,8]", Kind::None),
    ("[8 8]", Kind::None),
    ("{", Kind::None),
    ("{8}", Kind::None),
    (r#"{"a"}"#, Kind::None),
    (r#"{"a":}"#, Kind::None),
    (r#"{"a":8,}"#, Kind::None),
    (r#"{a:8}"#, Kind::None),
    ("8 8", Kind::None),
    ("(8)", Kind::None),
    ("/**/8", Kind::None),
];

/// The row of a value, where the right kind has this row and the right value 0.
fn expected((text, kind): (&str, Kind), right: (Kind, &[&str], u32)) -> u32 {
    match right {
        (_, values, _) if values.contains(&text) => 0,
        (other, _, row) if other == kind => row,
        _ => 13,
    }
}

fn every_kind(compare: &mut Compare) {
    for value in VALUES {
        let (text, kind) = value;
        let header = object(&[format!(r#""alg":{text}"#)]);
        let row_of_header = row(compare, header, &bare()[1]);
        let alg: &[&str] = &[r#""HS256""#];
        assert_eq!(
            row_of_header,
            expected(value, (Kind::String, alg, 14)),
            "{text}"
        );

        let combos: &[&str] = &[r#""SIV_GCM""#, r#""SIV_CTRMAC""#];
        let mut of_payload = |format, combo, threshold| {
            let payload = payload(format, combo, threshold);
            row(compare, &bare()[0], payload)
        };
        let format = of_payload(text, combos[0], "220");
        assert_eq!(format, expected(value, (Kind::Whole, &["8"], 16)), "{text}");
        let combo = of_payload("8", text, "220");
        assert_eq!(combo, expected(value, (Kind::String, combos, 17)), "{text}");
        let threshold = of_payload("8", combos[0], text);
        let right: &[&str] = &["100"];
        assert_eq!(
            threshold,
            expected(value, (Kind::Whole, right, 18)),
            "{text}"
        );

        for place in [0, 1] {
            let unknown = with_member(compare, place, format!(r#""x":{text}"#));
            assert_eq!(unknown, if kind == Kind::None { 13 } else { 0 }, "{text}");
        }
    }
}

/// Strings that are nearly right: rows 14 and 17.
fn strings(compare: &mut Compare) {
    let payload_of = |name: &str| payload("8", &format!(r#""{name}""#), "220");
    let header_of = |name: &str| object(&[format!(r#""alg":"{name}""#)]);
    for right in ["HS256", "SIV_GCM", "SIV_CTRMAC"] {
        let mut others = vec![
            String::new(),
            right.to_lowercase(),
            format!("{right} "),
            format!(" {right}"),
            format!(r"{right}\u0000"),
            format!(r"\u0000{right}"),
            format!(r#"\"{right}\""#),
            format!("{right}{right}"),
            format!("\u{feff}{right}"),
        ];
        for i in 0..right.len() {
            let byte = right.as_bytes()[i];
            let (start, rest) = (&right[..i], &right[i + 1..]);
            others.push(start.to_string());
            others.push(format!("{start}{rest}"));
            for byte in [byte ^ 0x20, byte + 1, byte - 1] {
                // A byte below 0x20 does not stand for itself.
                others.push(format!(r"{start}\u{byte:04x}{rest}"));
            }
            others.push(format!(r"{start}\u01{byte:02x}{rest}"));
            others.push(format!(r"{start}\u{byte:02X}00{rest}"));
        }
        for other in others {
            let alg = row(compare, header_of(&other), &bare()[1]);
            assert_eq!(alg, 14, "{other}");
            let combo = row(compare, &bare()[0], payload_of(&other));
            assert_eq!(combo, 17, "{other}");
        }
    }
    assert_eq!(row(compare, header_of("SIV_GCM"), &bare()[1]), 14);
    assert_eq!(row(compare, &bare()[0], payload_of("HS256")), 17);
}

fn no_objects(compare: &mut Compare) {
    for (text, _) in VALUES {
        let [header, payload] = bare();
        let expected = if text == header { 0 } else { 13 };
        assert_eq!(row(compare, text, &payload), expected, "{text}");
        assert_eq!(row(compare, &header, text), 13, "{text}");
        assert_eq!(row(compare, text, text), 13, "{text}");
        for place in [0, 1] {
            for wrapped in [
                format!("[{}]", bare()[place]),
                format!("{}{text}", bare()[place]),
                format!("{text}{}", bare()[place]),
                format!(r#""{}""#, bare()[place].replace('"', r#"\""#)),
            ] {
                let mut texts = bare();
                let same = wrapped == texts[place];
                texts[place] = wrapped;
                let row = row(compare, &texts[0], &texts[1]);
                assert_eq!(row, if same { 0 } else { 13 }, "{}", texts[place]);
            }
        }
    }
}

/// Each character of both texts left out, doubled, or put in the place of
/// another: only where names and strings allow it is the result a label.
fn not_the_grammar(compare: &mut Compare) {
    let marks = br#"{}[]:,"\ 08-.eax/"#;
    for place in [0, 1] {
        let text = bare()[place].clone().into_bytes();
        for i in 0..text.len() {
            let structural = b"{}:,\"".contains(&text[i]);
            let mut changed = vec![[&text[..i], &text[i + 1..]].concat()];
            for &mark in marks {
                changed.push([&text[..i], &[mark], &text[i..]].concat());
                changed.push([&text[..i], &[mark], &text[i + 1..]].concat());
            }
            for (k, changed) in changed.into_iter().enumerate() {
                let mut texts = bare().map(String::into_bytes);
                let same = texts[place] == changed;
                texts[place] = changed;
                let row = row(compare, &texts[0], &texts[1]);
                assert!(!same || row == 0);
                if k == 0 && structural {
                    assert_eq!(row, 13, "without character {i}");
                }
            }
        }
    }
}
