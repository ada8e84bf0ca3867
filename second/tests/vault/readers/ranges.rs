//! Ranges that are read.

use super::Reader;
use crate::compare::Compare;
use crate::log::Log;
use crate::part::{Part, Run::Each};
use second::vault::Combo;

pub const PARTS: &[Part] = &[
    ("readers: every range of a short file", Each(short)),
    ("readers: edges of chunks", Each(edges)),
    ("readers: largest numbers", Each(largest)),
    ("readers: sums that would wrap", Each(wrapping)),
    ("readers: buffers", Each(buffers)),
];

/// Reads the range, if it is inside: this is added without wrapping.
fn check(compare: &mut Compare, log: &Log, reader: &Reader, from: u64, count: u64, out: &[u8]) {
    let end = reader.read(compare, from, count, out);
    let len = log.cleartext().len();
    if u128::from(from) + u128::from(count) > len as u128 {
        assert_eq!(end.row, 6, "{from} {count} of {len}");
        return;
    }
    let part = &log.cleartext()[from as usize..][..count as usize];
    assert_eq!((end.row, end.length), (0, count));
    assert!(end.buffers[0].starts_with(part), "another cleartext");
}

fn short(compare: &mut Compare, combo: Combo) {
    for len in [0, 1, 17, 50] {
        let log = Log::new(&mut compare.random, combo, len);
        let reader = Reader::new(compare, &log);
        let out = compare.random.bytes(60);
        for from in 0..=len as u64 + 3 {
            for count in 0..=len as u64 + 3 {
                check(compare, &log, &reader, from, count, &out);
            }
        }
    }
}

/// One byte before a border of chunks, at it and behind it, and borders of
/// blocks, at either end of a range.
const PLACES: [u64; 15] = [
    0, 1, 15, 16, 17, 32_766, 32_767, 32_768, 32_769, 65_535, 65_536, 65_537, 79_999, 80_000,
    80_001,
];

fn edges(compare: &mut Compare, combo: Combo) {
    for len in [32_767, 32_768, 32_769, 65_536, 80_000] {
        let log = Log::new(&mut compare.random, combo, len);
        let reader = Reader::new(compare, &log);
        let out = compare.random.bytes(80_003);
        for from in PLACES {
            for end in PLACES.into_iter().filter(|&end| from <= end) {
                check(compare, &log, &reader, from, end - from, &out);
            }
            let rest = (len as u64).saturating_sub(from);
            check(compare, &log, &reader, from, rest, &out);
            check(compare, &log, &reader, from, rest + 1, &out);
        }
    }
}

/// Those inside are compared elsewhere.
fn largest(compare: &mut Compare, combo: Combo) {
    for len in [0, 1, 100] {
        let log = Log::new(&mut compare.random, combo, len);
        let reader = Reader::new(compare, &log);
        let out = compare.random.bytes(100);
        let numbers: Vec<u64> = (0..64)
            .flat_map(|bit| [1 << bit, (1 << bit) - 1, u64::MAX << bit])
            .collect();
        for &from in &numbers {
            for &count in &numbers {
                if from.checked_add(count).is_none_or(|end| end > len as u64) {
                    check(compare, &log, &reader, from, count, &out);
                }
            }
        }
    }
}

/// What wraps would end inside, at the end, or behind it.
fn wrapping(compare: &mut Compare, combo: Combo) {
    for len in [0, 1, 32_768, 40_000] {
        let log = Log::new(&mut compare.random, combo, len);
        let reader = Reader::new(compare, &log);
        let out = compare.random.bytes(8);
        for below in [0, 1, 2, 500, 32_767, 32_768, 32_769, 40_000] {
            for more in [1, 2, len as u64, len as u64 + 1, len as u64 + 2] {
                let (large, small) = (u64::MAX - below, below + more);
                check(compare, &log, &reader, large, small, &out);
                check(compare, &log, &reader, small, large, &out);
            }
        }
    }
}

fn buffers(compare: &mut Compare, combo: Combo) {
    let log = Log::new(&mut compare.random, combo, 100);
    let reader = Reader::new(compare, &log);
    for count in [0, 1, 30, 100] {
        for room in 0..120 {
            let out = compare.random.bytes(room);
            let end = reader.read(compare, 0, count, &out);
            let fits = room >= count as usize;
            assert_eq!(end.row, if fits { 0 } else { 7 });
        }
    }
}
