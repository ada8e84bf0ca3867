//! Full names that end too early, and that go on.

use super::{openers, place, roomy, CHARACTERS};
use crate::case::Case;
use crate::compare::Compare;
use crate::format::{LONGEST_NAME, LONGEST_PLAIN};
use crate::make::{self, text_of};
use crate::part::{Part, Run::Each};
use second::vault::Combo;

pub const PARTS: &[Part] = &[
    ("places: cut", Each(cut)),
    ("places: cut, and one character", Each(one_more)),
    ("places: appended", Each(appended)),
];

/// Names that are shortened.
const LONG: [usize; 5] = [
    LONGEST_PLAIN + 1,
    255,
    LONGEST_NAME - 2,
    LONGEST_NAME - 1,
    LONGEST_NAME,
];

fn long(compare: &mut Compare, combo: Combo) -> [Case; 5] {
    LONG.map(|len| roomy(make::open_long_name(&mut compare.random, combo, len)))
}

/// The place is the length.
fn cut(compare: &mut Compare, combo: Combo) {
    let short = (1..=LONGEST_PLAIN).map(|len| make::open_name(&mut compare.random, combo, len));
    let short: Vec<_> = short.collect();
    for case in short.into_iter().chain(long(compare, combo)) {
        let right = text_of(&case);
        for len in 0..right.len() {
            assert_eq!(place(compare, &case, &right[..len]), Some(len));
        }
    }
}

/// The place is that of the last character, or behind it.
fn one_more(compare: &mut Compare, combo: Combo) {
    for len in [1, 2, 3, 8, 9, 10, 144, 145, 146] {
        for case in openers(&mut compare.random, combo, 220, len) {
            let right = text_of(&case);
            for len in 0..right.len() {
                for character in CHARACTERS {
                    let text = [&right[..len], &[*character]].concat();
                    let at = place(compare, &case, &text);
                    assert!(matches!(at, Some(at) if at == len || at == len + 1) || text == right);
                }
            }
        }
    }
}

/// The place is that of the first appended character.
fn appended(compare: &mut Compare, combo: Combo) {
    let short = [1, 2, 3, 144, 145, 146];
    let short = short.map(|len| make::open_name(&mut compare.random, combo, len));
    for case in short.into_iter().chain(long(compare, combo)) {
        let right = text_of(&case);
        for character in 0..=255 {
            for more in [&[][..], b"A", b"===", b".c9r"] {
                let text = [&right[..], &[character], more].concat();
                assert_eq!(place(compare, &case, text), Some(right.len()));
            }
        }
    }
}
