//! Labels: usual ones, the deepest and the longest, and hostile ones.

use super::calls::{ends, Depth, RAW_KEY};
use crate::common::labels::{filled, label, HEADER, PAYLOAD};
use skrapnefja::{Label, Refusal};

/// Members that are nested as deep as they may be.
const ARRAYS: &str = r#""x":[[[[[[[[]]]]]]]],"#;
const OBJECTS: &str = r#""x":{"":{"":{"":{"":{"":{"":{"":{}}}}}}}},"#;

/// The end of a payload that is right.
const REQUIRED: &str = r#""format":8,"cipherCombo":"SIV_GCM","shorteningThreshold":220}"#;

/// Of 4,096 bytes: how each begins, what fills it, and how it ends.
const RIGHT: [(&str, [&str; 3]); 7] = [
    ("open_label, filled with arrays", ["{", ARRAYS, REQUIRED]),
    ("open_label, filled with objects", ["{", OBJECTS, REQUIRED]),
    (
        "open_label, filled with members",
        ["{", r#""x":-1.5e3,"#, REQUIRED],
    ),
    ("open_label, filled with white space", ["{", " ", REQUIRED]),
    (
        "open_label, filled with escapes",
        [
            r#"{"x":""#,
            r"\u00e9",
            r#"","format":8,"cipherCombo":"SIV_GCM","shorteningThreshold":220}"#,
        ],
    ),
    (
        "open_label, filled with characters",
        [
            r#"{"x":""#,
            "\u{1d11e}",
            r#"","format":8,"cipherCombo":"SIV_GCM","shorteningThreshold":220}"#,
        ],
    ),
    (
        "open_label, filled with digits",
        [
            r#"{"x":"#,
            "9",
            r#","format":8,"cipherCombo":"SIV_GCM","shorteningThreshold":220}"#,
        ],
    ),
];

/// Of 4,096 bytes, and not labels.
const WRONG: [(&str, [&str; 3]); 8] = [
    ("open_label, filled with '['", ["", "[", ""]),
    (
        "open_label, filled with '[' in a member",
        [r#"{"a":"#, "[", ""],
    ),
    ("open_label, filled with '{\"a\":'", ["", r#"{"a":"#, ""]),
    ("open_label, filled with '[{\"a\":'", ["", r#"[{"a":"#, ""]),
    ("open_label, filled with '\"'", [r#"{"#, r#"""#, ""]),
    ("open_label, filled with '\\'", [r#"{""#, r"\", ""]),
    (
        "open_label, members twice",
        ["{", r#""format":8,"#, REQUIRED],
    ),
    ("open_label, filled with ','", ["{", ",", REQUIRED]),
];

pub fn depths() -> Vec<Depth> {
    let usual = label(&RAW_KEY, [HEADER.as_bytes(), PAYLOAD.as_bytes()]);
    let nested = [ARRAYS, OBJECTS].map(|members| {
        let header = format!(r#"{{{members}"alg":"HS256"}}"#);
        let payload = format!("{{{members}{REQUIRED}");
        label(&RAW_KEY, [header.as_bytes(), payload.as_bytes()])
    });
    let mut depths = vec![
        ("open_label", of(&usual, Ok(220))),
        ("open_label, eight arrays deep", of(&nested[0], Ok(220))),
        ("open_label, eight objects deep", of(&nested[1], Ok(220))),
    ];
    for (name, parts) in RIGHT {
        depths.push((name, of(&filled(&RAW_KEY, parts), Ok(220))));
    }
    for (name, parts) in WRONG {
        let refused = Err(Refusal::Label(None));
        depths.push((name, of(&filled(&RAW_KEY, parts), refused)));
    }
    depths.push(("open_label, a broken segment", of_broken()));
    depths
}

/// What the call used on a label of 4,096 bytes that is broken at the last.
fn of_broken() -> usize {
    let mut label = filled(&RAW_KEY, ["{", " ", REQUIRED]);
    let last = label.len() - 1;
    label[last] = b'=';
    of(&label, Err(Refusal::Label(Some(last as u64))))
}

/// What the call used that must give this threshold or be refused.
fn of(label: &[u8], end: Result<usize, Refusal>) -> usize {
    ends(end, || {
        let label = Label::open(&RAW_KEY, label)?;
        Ok(label.threshold as usize)
    })
}
