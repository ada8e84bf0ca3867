//! One character of a full name is another.

use super::{is_never_right, openers, place, roomy, CHARACTERS};
use crate::case::Case;
use crate::compare::Compare;
use crate::format::{full_len, LONGEST_NAME, THRESHOLDS};
use crate::make::{self, text_of};
use crate::part::{Part, Run::Each};
use second::vault::Combo;
use std::ops::Range;

pub const PARTS: &[Part] = &[
    ("places: one character changed", Each(short)),
    ("places: one character of long names changed", Each(long)),
];

/// How many characters from the end on are each changed to any byte.
const END: usize = 12;

/// Fails unless the text is broken at the changed character or behind it, and
/// just there where the new one is never right.
fn change(compare: &mut Compare, case: &Case, places: Range<usize>, characters: &[u8]) {
    let right = text_of(case);
    for changed in places {
        for &character in characters {
            let mut text = right.clone();
            text[changed] = character;
            let at = place(compare, case, &text);
            assert!(at.is_none_or(|at| (changed..=right.len()).contains(&at)));
            assert!(at == Some(changed) || !is_never_right(character));
            assert!(at.is_none() || text != right);
        }
    }
}

/// By both openers, with the least threshold for the name or with more.
fn short(compare: &mut Compare, combo: Combo) {
    for len in (1..=14).chain([40, 41, 42, 99, 144, 145, 146]) {
        let full = full_len(len);
        let least = full.max(usize::from(*THRESHOLDS.start()));
        let more = usize::from(*THRESHOLDS.end()) - least;
        let threshold = least + compare.random.below(2) * compare.random.below(more + 1);
        for case in openers(&mut compare.random, combo, threshold as u8, len) {
            change(compare, &case, 0..full, CHARACTERS);
        }
    }
}

/// All bytes at the end, which tells how many bytes the text stands for.
fn long(compare: &mut Compare, combo: Combo) {
    let all: Vec<_> = (0..=255).collect();
    for len in (146..=148).chain(LONGEST_NAME - 2..=LONGEST_NAME) {
        let case = roomy(make::open_long_name(&mut compare.random, combo, len));
        let end = full_len(len);
        change(compare, &case, end - END..end, &all);
    }
}
