//! Ranges that are mended.

use super::{done, opens, refused, Log};
use crate::compare::Compare;
use crate::format::sizes;
use crate::part::{Part, Run::Each};
use second::vault::Combo;
use std::collections::BTreeSet;

pub const PARTS: &[Part] = &[
    ("mends: every range of a short file", Each(short)),
    ("mends: edges of chunks", Each(edges)),
    ("mends: empty ranges", Each(empty)),
];

/// Mends the range, if it is inside, and reads it.
fn check(compare: &mut Compare, log: &Log, from: usize, count: usize) {
    let mend = log.mend(&mut compare.random, from, count);
    if from + count <= log.cleartext().len() {
        let mended = done(compare, log, &mend);
        opens(compare, &mended, from..from + count);
    } else {
        refused(compare, &mend, 6);
    }
}

fn short(compare: &mut Compare, combo: Combo) {
    for len in [0, 1, 17, 50] {
        let log = Log::new(&mut compare.random, combo, len);
        for from in 0..=len + 3 {
            for count in 0..=len + 3 {
                check(compare, &log, from, count);
            }
        }
    }
}

/// One byte before a border of chunks, at it, and one byte behind it, at either
/// end of a range.
fn edges(compare: &mut Compare, combo: Combo) {
    for len in [1, 32_767, 32_768, 32_769, 65_536, 66_000, 98_304] {
        let log = Log::new(&mut compare.random, combo, len);
        let borders = [0, 32_768, 65_536].into_iter();
        let near = borders.flat_map(|border: usize| border.saturating_sub(1)..=border + 1);
        let places: BTreeSet<_> = near.chain([len - 1, len]).collect();
        for &from in places.range(..=len) {
            for &end in places.range(from..=len) {
                check(compare, &log, from, end - from);
            }
            check(compare, &log, from, len + 1 - from);
        }
    }
}

/// They take no nonce, need a good header, and change nothing, whatever the
/// chunks hold.
fn empty(compare: &mut Compare, combo: Combo) {
    let header = sizes(combo).header;
    for len in [0, 1, 40, 32_768, 40_000] {
        let log = Log::new(&mut compare.random, combo, len);
        for from in [0, len / 2, len.saturating_sub(1), len] {
            let mut mend = log.mend(&mut compare.random, from, 0);
            assert!(mend.inputs[2].is_empty());
            assert!(done(compare, &log, &mend).file == log.file);
            mend.buffers[0][header..].fill(0xa5);
            done(compare, &log, &mend);
            mend.buffers[0][20] ^= 1;
            refused(compare, &mend, 9);
        }
        for from in [len + 1, len + 32_768, usize::MAX - 1, usize::MAX] {
            let mut mend = log.mend(&mut compare.random, from, 0);
            refused(compare, &mend, 6);
            mend.buffers[0].clear();
            refused(compare, &mend, 4);
        }
        for from in [0, len, len + 1, usize::MAX] {
            let mut mend = log.mend(&mut compare.random, from, 0);
            for number in [1, 12, 16, 24, 32] {
                mend.inputs[2] = vec![9; number];
                refused(compare, &mend, 1);
            }
        }
    }
}
