//! Texts around each threshold: behind the last whole group that fits, only the
//! suffix can follow.

use super::{long, place, plain};
use crate::compare::Compare;
use crate::format::THRESHOLDS;
use crate::part::{Part, Run::Each};
use second::vault::Combo;

pub const PARTS: &[Part] = &[
    ("places: texts around each threshold", Each(around)),
    ("places: no text, and long texts", Each(empty_and_long)),
];

/// How many characters a text can have before the suffix.
fn most(threshold: u8) -> usize {
    (usize::from(threshold) - 4) / 4 * 4
}

/// By the last character before the padding, whose last bits may be spare.
fn around(compare: &mut Compare, combo: Combo) {
    for threshold in THRESHOLDS {
        let most = most(threshold);
        let case = plain(&mut compare.random, combo, threshold);
        for digits in most - 5..=most + 5 {
            let start = "A".repeat(digits - 1);
            for last in ["Q", "E", "B"] {
                for behind in ["", ".c9r", "=.c9r", "==.c9r", "A.c9r"] {
                    let at = place(compare, &case, format!("{start}{last}{behind}"));
                    assert!(digits <= most || at == Some(most));
                    assert!(at.is_none_or(|at| at <= most || digits < most));
                }
            }
        }
    }
}

/// Longer than any limit.
fn empty_and_long(compare: &mut Compare, combo: Combo) {
    let pair = long(&mut compare.random, combo);
    assert_eq!(place(compare, &pair, ""), Some(0));
    for threshold in THRESHOLDS {
        let case = plain(&mut compare.random, combo, threshold);
        assert_eq!(place(compare, &case, ""), Some(0));
        for len in [256, 1388, 65_536] {
            let text = "A".repeat(len);
            assert_eq!(place(compare, &case, text), Some(most(threshold)));
        }
    }
    for len in [1500, 4096, 65_536, 70_000] {
        for suffix in ["", "=", "==", ".c9r", "==.c9r"] {
            let text = "A".repeat(len) + suffix;
            assert_eq!(place(compare, &pair, text), Some(1382));
        }
    }
}
