//! Names and strings in every spelling.

use super::{bare, row, with_member};
use crate::compare::Compare;
use crate::part::{Part, Run::Once};

pub const PARTS: &[Part] = &[
    ("labels: every character escaped", Once(every_character)),
    ("labels: all characters escaped", Once(all_characters)),
    ("labels: every letter behind a backslash", Once(letters)),
    ("labels: every byte as a digit", Once(digits)),
    ("labels: every surrogate, and pairs", Once(surrogates)),
];

/// The strings that are looked at, each with its text's place.
const STRINGS: [(usize, &str); 6] = [
    (0, "alg"),
    (0, "HS256"),
    (1, "format"),
    (1, "cipherCombo"),
    (1, "SIV_GCM"),
    (1, "shorteningThreshold"),
];

/// The escapes of a character: its digits in either case.
fn escapes(byte: u8) -> Vec<String> {
    let digits = format!("{byte:04x}").into_bytes();
    let mut all: Vec<_> = (0..16)
        .map(|cases| {
            let cased = digits.iter().enumerate().map(|(i, digit)| {
                if cases >> i & 1 == 1 {
                    digit.to_ascii_uppercase()
                } else {
                    *digit
                }
            });
            let cased = String::from_utf8(cased.collect()).expect("digits");
            format!(r"\u{cased}")
        })
        .collect();
    all.dedup();
    all
}

/// The row of the texts with a string in another spelling.
fn spelled(compare: &mut Compare, (place, string): (usize, &str), spelling: &str) -> u32 {
    let mut texts = bare();
    let quoted = [string, spelling].map(|text| format!(r#""{text}""#));
    texts[place] = texts[place].replace(&quoted[0], &quoted[1]);
    row(compare, &texts[0], &texts[1])
}

fn every_character(compare: &mut Compare) {
    for (place, string) in STRINGS {
        for (i, byte) in string.bytes().enumerate() {
            for escape in escapes(byte) {
                let spelling = format!("{}{escape}{}", &string[..i], &string[i + 1..]);
                assert_eq!(
                    spelled(compare, (place, string), &spelling),
                    0,
                    "{spelling}"
                );
            }
        }
    }
}

/// All of them, and any choice of them.
fn all_characters(compare: &mut Compare) {
    for (place, string) in STRINGS {
        for chosen in (0..100)
            .map(|_| compare.random.word())
            .chain([u64::MAX])
            .collect::<Vec<_>>()
        {
            let characters = string.bytes().enumerate().map(|(i, byte)| {
                let all = escapes(byte);
                match chosen >> i & 1 {
                    1 => all[compare.random.below(all.len())].clone(),
                    _ => char::from(byte).to_string(),
                }
            });
            let spelling = characters.collect::<String>();
            assert_eq!(
                spelled(compare, (place, string), &spelling),
                0,
                "{spelling}"
            );
        }
    }
}

/// Eight of them are escapes by themselves, and `u` with four digits.
fn letters(compare: &mut Compare) {
    for letter in 0..=255 {
        for place in [0, 1] {
            let right = b"\"\\/bfnrt".contains(&letter);
            let value = [br#""x":"\"#, &[letter][..], b"\""].concat();
            assert_eq!(
                with_member(compare, place, value),
                if right { 0 } else { 13 }
            );
            let name = [br#""\"#, &[letter][..], br#"0061":1"#].concat();
            let right = right || letter == b'u';
            assert_eq!(
                with_member(compare, place, name),
                if right { 0 } else { 13 }
            );
        }
    }
    // A backslash before the end of a name that is looked at, and one escape in
    // place of a character.
    for (place, string) in STRINGS {
        for other in [
            format!(r"{string}\"),
            format!(r"\{string}"),
            format!(r"{string}\u"),
        ] {
            assert_eq!(spelled(compare, (place, string), &other), 13, "{other}");
        }
    }
}

/// At each of the four places behind `\u`, in a string, in a name, and in a
/// name that is looked at.
fn digits(compare: &mut Compare) {
    for place in 0..4 {
        for byte in 0..=255 {
            let mut escape = *br"\u0061";
            escape[2 + place] = byte;
            let right = byte.is_ascii_hexdigit();
            let value = [br#""x":""#, &escape[..], b"\""].concat();
            let name = [br#"""#, &escape[..], br#"":0"#].concat();
            for member in [value, name] {
                let row = with_member(compare, 0, member);
                assert_eq!(row, if right { 0 } else { 13 }, "{escape:x?}");
            }
            let header = [br#"{""#, &escape[..], br#"lg":"HS256"}"#].concat();
            let same = escape == *br"\u0061";
            let row = row(compare, header, &bare()[1]);
            assert_eq!(row, if same { 0 } else { 13 }, "{escape:x?}");
        }
    }
    for cut in [
        r"\u", r"\u0", r"\u00", r"\u006", r"\u 0061", r"\U0061", r"\u{61}", r"\x61",
    ] {
        assert_eq!(with_member(compare, 1, format!(r#""x":"{cut}""#)), 13);
        assert_eq!(with_member(compare, 1, format!(r#""{cut}":1"#)), 13);
    }
}

/// A single one is allowed, in any order.
fn surrogates(compare: &mut Compare) {
    for number in (0xd700..=0xe0ff).chain(0..0x100).chain(0xff00..=0xffff) {
        let member = format!(r#""\u{number:04X}":"\u{number:04x}""#);
        assert_eq!(with_member(compare, 1, member), 0);
    }
    for pair in [
        r"\uD834\uDD1E",
        r"\uDD1E\uD834",
        r"\uD834x",
        r"\uD834\uD834",
        r"\uD834\n",
    ] {
        assert_eq!(with_member(compare, 0, format!(r#""{pair}":"{pair}""#)), 0);
    }
}
