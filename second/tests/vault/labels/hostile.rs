//! Texts that are made to be hard to read, up to the longest label.

use super::{bare, row};
use crate::common::labels;
use crate::compare::Compare;
use crate::format::{LONGEST_LABEL, RAW_KEY};
use crate::make;
use crate::part::{Part, Run::Once};

pub const PARTS: &[Part] = &[
    ("labels: hostile texts", Once(texts)),
    ("labels: hostile members", Once(members)),
    ("labels: hostile labels", Once(labels)),
];

/// What is repeated.
const PIECES: [&str; 32] = [
    "[",
    "]",
    "{",
    "}",
    "[]",
    "{}",
    "[[],",
    "[{",
    r#"{"a":"#,
    r#"{"":"#,
    r#"[{"a":["#,
    r#"{"a":1,"#,
    r#"""#,
    r#""""#,
    r"\",
    r"\\",
    r#"\""#,
    r"\u",
    r"\u0061",
    r"\ud800",
    ",",
    ":",
    "0,",
    "1",
    "-",
    "e1",
    " ",
    "null",
    "\0",
    "\u{feff}",
    "\u{1d11e}",
    "/*",
];

/// The most bytes that the text beside a bare one can have.
fn most(text: &str) -> usize {
    let other = (text.len() * 4).div_ceil(3);
    (LONGEST_LABEL - 45 - other) / 4 * 3
}

/// A text of one thing, again and again: row 13.
fn texts(compare: &mut Compare) {
    let [header, payload] = bare();
    for piece in PIECES {
        for start in ["", "{", r#"{"a":"#, r#"{"a":""#, "[", r#"""#] {
            let raw_key = compare.random.bytes(RAW_KEY);
            let longest = labels::filled(&raw_key, [start, piece, ""]);
            assert_eq!(compare.row(&make::open_label_of(&raw_key, longest)), 13);
            for len in [most(&payload), 1000, 100] {
                let text = format!("{start}{}", piece.repeat(len / piece.len() - start.len()));
                assert_eq!(row(compare, &text, &payload), 13, "{start}{piece}");
                assert_eq!(row(compare, &header, &text), 13, "{start}{piece}");
            }
        }
    }
}

/// In a member of a text that is right but for it. In a string most of it is
/// right: only what ends the string, or is no escape, is not.
fn members(compare: &mut Compare) {
    let [header, payload] = bare();
    for piece in PIECES {
        let count = 2900 / piece.len();
        for count in [1, 2, 8, 9, count - 1, count] {
            let repeated = piece.repeat(count);
            let string = format!(r#"{{"x":"{repeated}",{}"#, &payload[1..]);
            let row_of_string = row(compare, &header, string);
            let right = match piece {
                r"\" => count % 2 == 0,
                r"\u" | "\0" => false,
                _ => !piece.contains('"') || piece == r#"\""#,
            };
            assert_eq!(
                row_of_string,
                if right { 0 } else { 13 },
                "{piece}, {count}"
            );

            let value = format!(r#"{{"x":{repeated},{}"#, &payload[1..]);
            let row_of_value = row(compare, &header, value);
            let right = match piece {
                "[]" | "{}" | r#""""# | "null" => count == 1,
                r#"""# => count == 2,
                "1" => true,
                _ => false,
            };
            assert_eq!(row_of_value, if right { 0 } else { 13 }, "{piece}, {count}");
        }
    }
}

/// Labels that are no text at all, and one piece in each segment.
fn labels(compare: &mut Compare) {
    let raw_key = compare.random.bytes(RAW_KEY);
    for piece in PIECES {
        let raw = piece.repeat(LONGEST_LABEL / piece.len());
        let case = make::open_label_of(&raw_key, raw.into_bytes());
        assert_eq!(compare.row(&case), 13);
        let half = piece.repeat(1500 / piece.len());
        assert_eq!(row(compare, &half, &half), 13);
    }
    for _ in 0..500 {
        let len = compare.random.below(LONGEST_LABEL + 10);
        let random = compare.random.bytes(len);
        let case = make::open_label_of(&raw_key, random);
        assert_eq!(compare.row(&case), 13);
        let texts = [(); 2].map(|()| {
            let len = compare.random.below(1500);
            compare.random.bytes(len)
        });
        assert_eq!(row(compare, &texts[0], &texts[1]), 13);
    }
}
