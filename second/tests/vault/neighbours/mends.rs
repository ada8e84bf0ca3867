//! Reads beside mends: every one of a short file, and those at edges of chunks.

use super::beside::Mended;
use crate::compare::Compare;
use crate::log::{Log, RANGES_OF_THREE_CHUNKS};
use crate::part::{Part, Run::Each};
use second::vault::{Combo, CHUNK_LEN};

pub const PARTS: &[Part] = &[
    ("neighbours: every mend of a short file", Each(short)),
    ("neighbours: mends of three chunks", Each(three_chunks)),
    ("neighbours: mends and largest numbers", Each(largest)),
];

fn short(compare: &mut Compare, combo: Combo) {
    for len in [0, 1, 8] {
        let log = Log::new(&mut compare.random, combo, len);
        for start in 0..=len {
            for end in start..=len {
                let mended = Mended::new(compare, &log, log.file.clone(), start..end);
                every_read(compare, &mended, len);
            }
        }
    }
}

/// Inside or not, and with room or not.
fn every_read(compare: &mut Compare, mended: &Mended, len: usize) {
    for from in 0..=len as u64 + 2 {
        for count in 0..=len as u64 + 2 {
            let room = compare.random.below(len + 4);
            let out = compare.random.bytes(room);
            mended.read(compare, from, count, &out);
        }
    }
}

/// Every set of chunks is damaged that the mend does not cover.
fn three_chunks(compare: &mut Compare, combo: Combo) {
    let log = Log::new(&mut compare.random, combo, 3 * CHUNK_LEN);
    let out = compare.random.bytes(3 * CHUNK_LEN);
    for (from, count, [first, end]) in RANGES_OF_THREE_CHUNKS {
        let is_beside = |set: &usize| (first..end).all(|chunk| set >> chunk & 1 == 0);
        for set in (0..8).filter(is_beside) {
            let file = log.damaged(&mut compare.random, set);
            let range = from as usize..(from + count) as usize;
            let mended = Mended::new(compare, &log, file, range);
            for (from, count, _) in RANGES_OF_THREE_CHUNKS {
                mended.read(compare, from, count, &out);
            }
            around(compare, &mended, [from, from + count], &out);
        }
    }
}

/// Reads what is before the mended range and behind it, no bytes at its ends and
/// in it, and then one byte of it too.
fn around(compare: &mut Compare, mended: &Mended, [start, end]: [u64; 2], out: &[u8]) {
    let len = out.len() as u64;
    let (near, far) = (start.saturating_sub(20), len.min(end + 20));
    let middle = start.midpoint(end);
    let empty = [start, middle, end].map(|place| [place, place]);
    let beside = [[0, start], [near, start], [end, far], [end, len]];
    for [from, to] in beside.into_iter().chain(empty) {
        assert!(!mended.read(compare, from, to - from, out).0);
    }
    if start < end {
        for [from, to] in [[near, start + 1], [end - 1, far]] {
            assert!(mended.read(compare, from, to - from, out).0);
        }
    }
}

/// Numbers whose sums wrap to the front of the file, to the mended range, to its
/// end and to that of the file.
fn largest(compare: &mut Compare, combo: Combo) {
    let len = 40_000;
    let log = Log::new(&mut compare.random, combo, len);
    let out = compare.random.bytes(100);
    for range in [0..len, 100..150, 500..500, 32_760..32_780] {
        let mended = Mended::new(compare, &log, log.file.clone(), range.clone());
        for place in [0, range.start, range.end, len].map(|place| place as u64) {
            for below in [0, 1, 120, 40_000] {
                let (large, wraps) = (u64::MAX - below, below + 1 + place);
                for (from, count) in [(large, wraps), (wraps, large), (large, large)] {
                    assert_eq!(mended.read(compare, from, count, &out).1, 6);
                }
                assert_eq!(mended.read(compare, large, 0, &out), (false, 6));
                assert_eq!(mended.read(compare, place, large, &out).1, 6);
            }
        }
    }
}
