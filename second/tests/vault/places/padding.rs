//! Characters of the alphabet, padding, and what follows, in every number.

use super::{long, openers, place, plain};
use crate::case::Case;
use crate::compare::Compare;
use crate::format::LONGEST_FULL_NAME;
use crate::make::text_of;
use crate::part::{Part, Run::Each};
use second::vault::Combo;
use std::ops::RangeInclusive;

pub const PARTS: &[Part] = &[
    ("places: padding behind every number", Each(behind_digits)),
    ("places: padding in every place", Each(in_place)),
];

/// The last character before the padding, by its spare bits.
const LAST: &[u8] = b"AQEB9r";

/// What follows the padding.
const BEHIND: [&str; 8] = ["", ".c9r", "A", "AAAA.c9r", ".", ".c9s", "c9r", "+"];

/// In these numbers, random characters of the alphabet with each last one, then
/// none to three pads, and what follows.
fn grid(compare: &mut Compare, case: &Case, digits: RangeInclusive<usize>) {
    let characters = b"AbC9-_xyz0Q";
    for digits in digits {
        let mut start = Vec::new();
        start.resize_with(digits, || {
            characters[compare.random.below(characters.len())]
        });
        for &last in LAST {
            if let Some(old) = start.last_mut() {
                *old = last;
            }
            for pads in 0..=3 {
                for behind in BEHIND {
                    let behind = "=".repeat(pads) + behind;
                    place(compare, case, [&start, behind.as_bytes()].concat());
                }
            }
        }
    }
}

fn behind_digits(compare: &mut Compare, combo: Combo) {
    for (threshold, most) in [(36, 42), (37, 42), (39, 42), (40, 46), (60, 66)] {
        let case = plain(&mut compare.random, combo, threshold);
        grid(compare, &case, 0..=most);
    }
    let case = long(&mut compare.random, combo);
    grid(compare, &case, 0..=60);
    let near = LONGEST_FULL_NAME - 20..=LONGEST_FULL_NAME + 8;
    grid(compare, &case, near);
}

/// One, two or three pads in the place of characters, and put between them.
fn in_place(compare: &mut Compare, combo: Combo) {
    let mut cases = openers(&mut compare.random, combo, 60, 26).to_vec();
    cases.push(long(&mut compare.random, combo));
    for case in cases {
        let right = text_of(&case);
        for first in 0..=right.len() {
            for pads in 1..=3 {
                let (start, rest) = right.split_at(first);
                let padding = "=".repeat(pads).into_bytes();
                place(compare, &case, [start, &padding, rest].concat());
                let rest = rest.get(pads..).unwrap_or(&[]);
                place(compare, &case, [start, &padding, rest].concat());
            }
        }
    }
}
