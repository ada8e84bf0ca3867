//! Random files, mends and reads beside them.

use super::beside::Mended;
use super::random_len;
use crate::common::random::Random;
use crate::compare::Compare;
use crate::log::Log;
use crate::make;
use crate::part::{Part, Run::Each};
use second::vault::{Combo, CHUNK_LEN};
use std::collections::BTreeSet;
use std::ops::Range;

pub const PARTS: &[Part] = &[("neighbours: random mends", Each(random_mends))];

/// The rows that a read can have beside a mend, and over one.
const ROWS: [u32; 4] = [0, 6, 7, 10];

fn random_mends(compare: &mut Compare, combo: Combo) {
    let mut rows = BTreeSet::new();
    for _ in 0..200 {
        let len = random_len(&mut compare.random);
        let log = Log::new(&mut compare.random, combo, len);
        let (from, count) = make::range(&mut compare.random, len);
        let range = from as usize..(from + count) as usize;
        let file = damaged_beside(&mut compare.random, &log, &range);
        let mended = Mended::new(compare, &log, file, range.clone());
        for _ in 0..12 {
            let (from, count) = range_near(&mut compare.random, &range, len);
            let room = make::room(&mut compare.random, count, len);
            let out = compare.random.bytes(room);
            rows.insert(mended.read(compare, from, count, &out));
        }
    }
    let every = [false, true].map(|shares| ROWS.map(|row| (shares, row)));
    assert_eq!(rows, every.into_iter().flatten().collect());
}

/// The log's file, often with damage in chunks that the range does not cover.
fn damaged_beside(random: &mut Random, log: &Log, range: &Range<usize>) -> Vec<u8> {
    let first = range.start / CHUNK_LEN;
    let chunks = make::covered(range.start as u64, range.len());
    let covering = ((1 << chunks) - 1) << first;
    let set = random.below(16) & random.below(16) & !covering;
    log.damaged(random, set)
}

/// Often up to the mended range, from its end on, or without a byte.
fn range_near(random: &mut Random, mended: &Range<usize>, len: usize) -> (u64, u64) {
    let mut places = [0; 2].map(|_| match random.below(4) {
        0 => mended.start,
        1 => mended.end,
        2 => make::place(random, len),
        _ => random.below(len + 1),
    });
    places.sort_unstable();
    let [from, end] = places.map(|place| place as u64);
    make::or_outside(random, from, end - from, len)
}
