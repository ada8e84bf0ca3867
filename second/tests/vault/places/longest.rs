//! The last group of the longest full names. It stands for one byte: after 1,380
//! characters come two, of which the second has four spare bits, two pads and the
//! suffix.

use super::{long, place};
use crate::compare::Compare;
use crate::format::LONGEST_FULL_NAME;
use crate::part::{Part, Run::Each};
use second::vault::Combo;

pub const PARTS: &[Part] = &[
    ("places: spare bits of the longest names", Each(spare_bits)),
    ("places: each end of the longest names", Each(ends)),
    ("places: characters of the last group", Each(characters)),
];

/// Where the last group is.
const LAST_GROUP: usize = LONGEST_FULL_NAME - 8;

const ALPHABET: &[u8; 64] = b"ABCDEFGHIJKLMNOPQRSTUVWXYZabcdefghijklmnopqrstuvwxyz0123456789-_";

/// The character with spare bits that are not zero is itself the place, whatever
/// follows. In the group before it is not.
fn spare_bits(compare: &mut Compare, combo: Combo) {
    let case = long(&mut compare.random, combo);
    for (value, &second) in ALPHABET.iter().enumerate() {
        for first in ["A", "-", "9"] {
            let pair = format!("{first}{}", char::from(second));
            let last = "A".repeat(LAST_GROUP) + &pair;
            for behind in ["", "=", "==", "==.c9r", "AA.c9r", "A=.c9r", "+"] {
                let at = place(compare, &case, last.clone() + behind);
                assert!(value % 16 == 0 || at == Some(LAST_GROUP + 1));
                assert!(value % 16 != 0 || at != Some(LAST_GROUP + 1));
            }
            let before = "A".repeat(LAST_GROUP - 4) + &pair;
            assert_eq!(place(compare, &case, before.clone() + "AA.c9r"), None);
            let at = place(compare, &case, before + "==.c9r");
            let wrong = (value % 16 != 0).then_some(LAST_GROUP - 2);
            assert_eq!(at, wrong);
        }
    }
}

/// Characters of the alphabet, pads, and the suffix or not.
fn ends(compare: &mut Compare, combo: Combo) {
    let case = long(&mut compare.random, combo);
    for digits in LAST_GROUP - 8..=LAST_GROUP + 12 {
        for pads in 0..=4 {
            for behind in ["", ".", ".c9", ".c9r", ".c9rA", ".c9s", "A"] {
                let text = "A".repeat(digits) + &"=".repeat(pads) + behind;
                let at = place(compare, &case, text);
                assert!(digits <= LAST_GROUP + 2 || at == Some(LAST_GROUP + 2));
                assert!(at.is_none_or(|at| at <= LONGEST_FULL_NAME));
            }
        }
    }
}

/// Every byte at each place from the group before on. Behind the first character
/// of the last group no other is right, where it is not the text of another name.
fn characters(compare: &mut Compare, combo: Combo) {
    let case = long(&mut compare.random, combo);
    let right = "A".repeat(LAST_GROUP + 2) + "==.c9r";
    for changed in LAST_GROUP - 4..LONGEST_FULL_NAME {
        for byte in 0..=255 {
            let mut text = right.clone().into_bytes();
            text[changed] = byte;
            let at = place(compare, &case, text);
            assert!(at.is_none_or(|at| at >= changed));
            assert!(changed <= LAST_GROUP || at.is_none_or(|at| at == changed));
        }
    }
}
