//! The places at which segments are broken.

use super::{bare, segments, usual};
use crate::case::Case;
use crate::common::labels::{self, HEADER, PAYLOAD};
use crate::compare::Compare;
use crate::format::LONGEST_LABEL;
use crate::make;
use crate::part::{Part, Run::Once};
use second::base64url;

pub const PARTS: &[Part] = &[
    ("labels: each segment broken in every place", Once(changes)),
    ("labels: each segment cut and longer", Once(lengths)),
    ("labels: several segments broken", Once(several)),
    ("labels: broken, and no object", Once(no_object)),
    ("labels: broken, and too long", Once(too_long)),
    ("labels: broken, and other dots", Once(other_dots)),
    ("labels: all of a few characters", Once(short)),
];

const CHARACTERS: &[u8] = b"AQgEc9r_-B=+/ \n\0\x80\xff";

fn is_in_alphabet(character: u8) -> bool {
    character.is_ascii_alphanumeric() || b"-_".contains(&character)
}

/// Labels whose segments have, one after the other, each number of characters
/// in their last group.
fn labels_of_each_kind() -> Vec<[Vec<u8>; 3]> {
    let of_kind = |kind: usize| {
        let [header, payload] = bare().map(|text| text + &" ".repeat(kind));
        let signature = vec![0x5a; 30 + kind];
        [header.into_bytes(), payload.into_bytes(), signature]
            .map(|bytes| base64url::encode(&bytes, false).into_bytes())
    };
    (0..3).map(of_kind).collect()
}

/// The place that both programs give, if they give one.
fn place(compare: &mut Compare, case: &Case, label: impl AsRef<[u8]>) -> Option<usize> {
    let label = label.as_ref().to_vec();
    let end = compare.end(&make::open_label_of(&case.inputs[0], label));
    assert!(end.row == 13 || end.place().is_none());
    end.place().map(|place| place as usize)
}

/// The place of the label of these segments.
fn place_of(compare: &mut Compare, case: &Case, segments: &[Vec<u8>; 3]) -> Option<usize> {
    place(compare, case, segments.join(&b'.'))
}

/// Where a segment begins in the label.
fn start(segments: &[Vec<u8>; 3], number: usize) -> usize {
    let before = segments[..number].iter();
    before.map(|segment| segment.len() + 1).sum()
}

/// Fails unless a character that is in no segment is the place. With another one
/// as its last the segment can end too early, if spare bits are not zero.
fn changes(compare: &mut Compare) {
    let case = usual(compare);
    for right in labels_of_each_kind() {
        for number in 0..3 {
            let end = start(&right, number) + right[number].len();
            for changed in 0..right[number].len() {
                for &character in CHARACTERS {
                    let mut segments = right.clone();
                    segments[number][changed] = character;
                    let at = place_of(compare, &case, &segments);
                    if is_in_alphabet(character) {
                        let is_last = changed + 1 == right[number].len();
                        assert!(at.is_none() || is_last && at == Some(end));
                    } else {
                        assert_eq!(at, Some(start(&right, number) + changed));
                    }
                }
            }
        }
    }
}

/// A segment that was cut only ends too early, if it is broken.
fn lengths(compare: &mut Compare) {
    let case = usual(compare);
    for right in labels_of_each_kind() {
        for number in 0..3 {
            let start = start(&right, number);
            for len in 0..=right[number].len() {
                let mut segments = right.clone();
                segments[number].truncate(len);
                let at = place_of(compare, &case, &segments);
                assert!(at.is_none_or(|at| at == start + len));
                assert!(at.is_some() || len % 4 != 1);
                for more in ["=", "==", "+", "A=", "AAAA=", "\n"] {
                    let mut segments = segments.clone();
                    segments[number].extend(more.bytes());
                    let right = more.bytes().take_while(|&byte| is_in_alphabet(byte));
                    let at = place_of(compare, &case, &segments);
                    assert_eq!(at, Some(start + len + right.count()));
                }
            }
        }
    }
}

/// Breaks a segment at a random place.
fn break_segment(compare: &mut Compare, segment: &mut Vec<u8>) {
    let random = &mut compare.random;
    let place = random.below(segment.len() + 1);
    match (random.below(2), segment.len() % 4) {
        (0, 0) => segment.push(b'A'),
        (0, 2 | 3) => *segment.last_mut().expect("some") = b'B',
        _ => segment.insert(place, b"=+/ \n\0\x80\xff"[random.below(8)]),
    }
}

/// The first one counts.
fn several(compare: &mut Compare) {
    let case = usual(compare);
    for right in labels_of_each_kind() {
        for round in 0..1400 {
            let broken = 1 + round % 7;
            let mut segments = right.clone();
            for number in (0..3).filter(|number| broken >> number & 1 == 1) {
                break_segment(compare, &mut segments[number]);
            }
            let first = (0..3).find(|number| broken >> number & 1 == 1);
            let first = first.expect("there is one");
            let start = start(&segments, first);
            let at = place_of(compare, &case, &segments).expect("a place");
            assert!((start..=start + segments[first].len()).contains(&at));

            let mut only = right.clone();
            only[first] = segments[first].clone();
            assert_eq!(place_of(compare, &case, &only), Some(at));
        }
    }
}

/// The place comes before what is wrong with a text, be it in a segment before
/// or behind, and before a wrong signature. Without it there is none.
fn no_object(compare: &mut Compare) {
    let case = usual(compare);
    let texts = [
        "",
        "{",
        "[]",
        "{}",
        "\u{feff}{}",
        r#"{"alg":8}"#,
        HEADER,
        PAYLOAD,
    ];
    for header in texts {
        for payload in texts {
            let label = labels::label(&case.inputs[0], [header.as_bytes(), payload.as_bytes()]);
            assert_eq!(place(compare, &case, &label), None);
            let right = segments(&make::open_label_of(&case.inputs[0], label));
            let right = right.map(String::into_bytes);
            for number in 0..3 {
                let mut segments = right.clone();
                break_segment(compare, &mut segments[number]);
                let start = start(&segments, number);
                let at = place_of(compare, &case, &segments).expect("a place");
                assert!((start..=start + segments[number].len()).contains(&at));
            }
        }
    }
}

/// A label of more than 4,096 bytes has no place, however it is broken.
fn too_long(compare: &mut Compare) {
    let case = usual(compare);
    for len in LONGEST_LABEL - 6..=LONGEST_LABEL + 6 {
        for number in 0..3 {
            for broken in ["", "=", "A=", "B"] {
                let mut segments = [vec![], vec![], vec![]];
                segments[number] = vec![b'A'; len - 2 - broken.len()];
                segments[number].extend(broken.bytes());
                let at = place_of(compare, &case, &segments);
                assert!(at.is_none() || len <= LONGEST_LABEL);
                assert!(at.is_some() || len > LONGEST_LABEL || !broken.contains('='));
            }
        }
    }
}

/// Nor has a label with more or fewer than two dots.
fn other_dots(compare: &mut Compare) {
    let case = usual(compare);
    for segment in ["", "A", "=", "AB", "AAAA", "+AAA", "\0"] {
        for dots in 0..=6 {
            let label = vec![segment; dots + 1].join(".");
            let at = place(compare, &case, &label);
            let broken = dots == 2 && !matches!(segment, "" | "AAAA");
            assert_eq!(at.is_some(), broken, "{label}");
        }
    }
    let right = case.inputs[1].clone();
    for inserted in 0..=right.len() {
        let (before, behind) = right.split_at(inserted);
        let label = [before, b".", behind, b"="].concat();
        assert_eq!(place(compare, &case, label), None);
    }
}

/// All labels of up to so many of these characters, among them all with empty
/// segments.
fn short(compare: &mut Compare) {
    const SYMBOLS: &[u8] = b"AQEB=.";
    const MOST: u32 = 6;
    let case = usual(compare);
    for len in 0..=MOST {
        for mut number in 0..SYMBOLS.len().pow(len) {
            let mut label = vec![];
            label.resize_with(len as usize, || {
                let symbol = SYMBOLS[number % SYMBOLS.len()];
                number /= SYMBOLS.len();
                symbol
            });
            let dots = label.iter().filter(|&&symbol| symbol == b'.').count();
            let at = place(compare, &case, &label);
            assert!(at.is_none() || dots == 2);
            assert_eq!(at.is_some(), dots == 2 && !has_right_segments(&label));
        }
    }
}

fn has_right_segments(label: &[u8]) -> bool {
    let mut segments = label.split(|&byte| byte == b'.');
    segments.all(|segment| base64url::decode(segment, false).is_some())
}
