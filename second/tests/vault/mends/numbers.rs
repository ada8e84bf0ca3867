//! Numbers that are too large, and sums of them that would wrap.

use super::refused;
use crate::case::Case;
use crate::compare::Compare;
use crate::format::sizes;
use crate::make::{self, covered};
use crate::part::{Part, Run::Each};
use second::vault::Combo;

pub const PARTS: &[Part] = &[
    ("mends: largest numbers", Each(largest)),
    ("mends: sums that would wrap", Each(wrapping)),
];

/// The mend of a range that is not inside: row 6 with a nonce for each chunk that
/// it would cover, and row 1 with any other number of them.
fn outside(compare: &mut Compare, case: &Case, combo: Combo, from: u64, count: usize) {
    let mut mend = case.clone();
    mend.numbers = vec![from];
    mend.inputs[1] = vec![0x5a; count];
    let (right, nonce) = (covered(from, count), sizes(combo).nonce);
    for number in 0..=right + 2 {
        mend.inputs[2] = compare.random.bytes(number * nonce);
        refused(compare, &mend, if number == right { 6 } else { 1 });
    }
}

fn largest(compare: &mut Compare, combo: Combo) {
    for len in [0, 1, 40_000] {
        let case = make::mend(&mut compare.random, combo, len, 0, 0);
        let powers = (0..64).flat_map(|bit| [1 << bit, (1 << bit) - 1, u64::MAX << bit]);
        for from in powers.filter(|&from| from > len as u64) {
            for count in [0, 1, 2, 300] {
                outside(compare, &case, combo, from, count);
            }
        }
    }
}

/// What wraps would end inside, at the end, or behind it.
fn wrapping(compare: &mut Compare, combo: Combo) {
    for len in [0, 1, 32_768, 40_000] {
        let case = make::mend(&mut compare.random, combo, len, 0, 0);
        for below in [0, 1, 2, 500, 32_766, 32_767, 32_768, 32_769, 40_000] {
            let from = u64::MAX - below as u64;
            for count in [1, 2, 32_767, 32_768, 32_769, 40_001] {
                outside(compare, &case, combo, from, count);
            }
            for more in [0, 1, 2, len, len + 1, len + 2] {
                outside(compare, &case, combo, from, below + more);
            }
        }
    }
}
