//! Several mends of one file, one after the other.

use super::{done, opens, refused, Log};
use crate::compare::Compare;
use crate::make::chunk_nonces;
use crate::part::{Part, Run::Each};
use second::vault::{Combo, CHUNK_LEN};

pub const PARTS: &[Part] = &[
    ("mends: one after the other", Each(one_after_another)),
    ("mends: there and back", Each(there_and_back)),
    ("mends: nonces that were replaced", Each(replaced_nonces)),
];

/// Anywhere, often over what was mended before.
fn one_after_another(compare: &mut Compare, combo: Combo) {
    for len in [60, 300, 70_000] {
        let mut log = Log::new(&mut compare.random, combo, len);
        for _ in 0..20 {
            let from = compare.random.below(len);
            let count = compare.random.below((len - from).min(40_000) + 1);
            let mend = log.mend(&mut compare.random, from, count);
            log = done(compare, &log, &mend);
            opens(compare, &log, from..from + count);
        }
    }
}

/// The old bytes put back: the cleartext is the old one, and of the file the
/// chunks that were not covered.
fn there_and_back(compare: &mut Compare, combo: Combo) {
    for (len, from, count) in [(50, 10, 30), (70_000, 32_760, 20), (70_000, 40_000, 200)] {
        let log = Log::new(&mut compare.random, combo, len);
        let there = log.mend(&mut compare.random, from, count);
        let mended = done(compare, &log, &there);
        let mut back = mended.mend(&mut compare.random, from, count);
        back.inputs[1] = log.cleartext()[from..from + count].to_vec();
        let mended = done(compare, &mended, &back);
        opens(compare, &mended, from..from + count);
        assert!(mended.cleartext() == log.cleartext(), "another cleartext");
        let covering = log.covering(&back);
        for place in 0..log.file.len() {
            if !covering.contains(&place) {
                assert_eq!(mended.file[place], log.file[place]);
            }
        }
    }
}

/// Only those that are in the file now count: one that a mend has replaced may be
/// lent again, and the one in its place may not.
fn replaced_nonces(compare: &mut Compare, combo: Combo) {
    let log = Log::new(&mut compare.random, combo, CHUNK_LEN + 100);
    let old = chunk_nonces(combo, &log.file)[0];
    let first = log.mend(&mut compare.random, 5, 50);
    let mended = done(compare, &log, &first);
    let mut second = mended.mend(&mut compare.random, CHUNK_LEN + 5, 50);
    second.inputs[2].clone_from(&first.inputs[2]);
    refused(compare, &second, 8);
    second.inputs[2] = old.to_vec();
    let mended = done(compare, &mended, &second);
    opens(compare, &mended, CHUNK_LEN + 5..CHUNK_LEN + 55);
    second.buffers[0].clone_from(&mended.file);
    refused(compare, &second, 8);
}
