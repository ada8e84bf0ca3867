//! Members nested deep.

use super::{bare, row, with_member};
use crate::common::random::Random;
use crate::compare::Compare;
use crate::part::{Part, Run::Once};

pub const PARTS: &[Part] = &[
    ("labels: every depth", Once(depths)),
    ("labels: arrays and objects mixed", Once(mixed)),
    ("labels: wide and deep", Once(wide)),
    ("labels: brackets that do not match", Once(unmatched)),
    ("labels: required members nested", Once(required)),
];

/// The deepest that a member's value may be.
const DEEPEST: usize = 8;

/// Arrays and objects, one inside the other, as the letters tell, with this in
/// the innermost.
fn nested(kinds: &[u8], inside: &str) -> String {
    kinds.iter().rev().fold(inside.to_string(), |inside, kind| {
        match (kind, &inside[..]) {
            (b'a', _) => format!("[{inside}]"),
            (_, "") => "{}".to_string(),
            (_, _) => format!(r#"{{"o":{inside}}}"#),
        }
    })
}

fn random_kinds(random: &mut Random, depth: usize) -> Vec<u8> {
    (0..depth).map(|_| b"ao"[random.below(2)]).collect()
}

fn expected(depth: usize) -> u32 {
    if depth <= DEEPEST {
        0
    } else {
        13
    }
}

/// Arrays only, objects only, and both in turns.
fn depths(compare: &mut Compare) {
    for depth in (1..=40).chain([100, 255, 256, 257, 264]) {
        for kinds in ["a", "o", "ao", "oa"] {
            let kinds: Vec<_> = kinds.bytes().cycle().take(depth).collect();
            for inside in ["", "0", r#""x""#, "null"] {
                for place in [0, 1] {
                    let member = format!(r#""x":{}"#, nested(&kinds, inside));
                    let row = with_member(compare, place, &member);
                    assert_eq!(row, expected(depth), "{member}");
                }
            }
        }
    }
}

/// Every choice of kinds of seven, eight and nine.
fn mixed(compare: &mut Compare) {
    for depth in [7, 8, 9] {
        for choice in 0..1 << depth {
            let kinds = (0..depth).map(|i| b"ao"[choice >> i & 1]);
            let kinds: Vec<_> = kinds.collect();
            let member = format!(r#""x":{}"#, nested(&kinds, ""));
            let row = with_member(compare, choice % 2, member);
            assert_eq!(row, expected(depth));
        }
    }
}

/// What is closed does not count, however much there was of it.
fn wide(compare: &mut Compare) {
    for _ in 0..300 {
        let mut deepest = 0;
        let members: Vec<_> = (0..1 + compare.random.below(6))
            .map(|i| {
                let depth = 6 + compare.random.below(3) + compare.random.below(2) * (i % 2);
                deepest = deepest.max(depth);
                let kinds = random_kinds(&mut compare.random, depth);
                format!(r#""x{i}":{}"#, nested(&kinds, ""))
            })
            .collect();
        let place = compare.random.below(2);
        let row = with_member(compare, place, members.join(","));
        assert_eq!(row, expected(deepest));
    }
    for outer in 0..DEEPEST {
        for inner in 1..=DEEPEST {
            let kinds = random_kinds(&mut compare.random, inner);
            let inner_text = nested(&kinds, "1");
            let siblings = [&inner_text[..], "[]", &inner_text, "{}", &inner_text].join(",");
            let arrays = nested(&vec![b'a'; outer + 1], &siblings);
            let row = with_member(compare, outer % 2, format!(r#""x":{arrays}"#));
            assert_eq!(row, expected(outer + 1 + inner));
        }
    }
    // Brackets inside of strings do not count.
    let brackets = format!(r#""x":"{}","{}":0"#, "[".repeat(100), r#"{\""#.repeat(100));
    assert_eq!(with_member(compare, 1, brackets), 0);
}

/// One bracket left out, doubled, or of the other kind.
fn unmatched(compare: &mut Compare) {
    for depth in [1, 2, 7, 8] {
        for _ in 0..20 {
            let kinds = random_kinds(&mut compare.random, depth);
            let text = nested(&kinds, "1");
            let places: Vec<_> = (0..text.len())
                .filter(|&i| b"[]{}".contains(&text.as_bytes()[i]))
                .collect();
            for place in places {
                let (start, rest) = text.split_at(place);
                let bracket = &rest[..1];
                let other = match bracket {
                    "[" => "{",
                    "]" => "}",
                    "{" => "[",
                    _ => "]",
                };
                let mut broken = vec![
                    format!("{start}{}", &rest[1..]),
                    format!("{start}{other}{}", &rest[1..]),
                ];
                // A closing one more ends the text's own object.
                broken.push(format!("{start}{bracket}{rest}"));
                for broken in broken {
                    let member = format!(r#""x":{broken}"#);
                    assert_eq!(with_member(compare, depth % 2, &member), 13, "{member}");
                }
            }
        }
    }
}

/// Row 13, whether the depth is right or not.
fn required(compare: &mut Compare) {
    for depth in 1..=12 {
        for _ in 0..10 {
            let kinds = random_kinds(&mut compare.random, depth);
            for (place, value) in [(0, r#""HS256""#), (1, "8"), (1, r#""SIV_GCM""#), (1, "220")] {
                let mut texts = bare();
                let nested = format!(":{}", nested(&kinds, value));
                texts[place] = texts[place].replace(&format!(":{value}"), &nested);
                assert_eq!(row(compare, &texts[0], &texts[1]), 13);
            }
        }
    }
}
