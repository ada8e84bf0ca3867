//! Many reads through one reader, in any order.

use super::Reader;
use crate::case::End;
use crate::common::random::Random;
use crate::compare::Compare;
use crate::fault::flip;
use crate::format::sizes;
use crate::log::Log;
use crate::make;
use crate::part::{Part, Run::Each};
use second::vault::{Combo, CHUNK_LEN};

pub const PARTS: &[Part] = &[
    ("readers: many reads of good files", Each(good)),
    ("readers: many reads of damaged files", Each(damaged)),
    ("readers: the same read again", Each(again)),
];

/// A range, mostly inside and short.
fn range(random: &mut Random, len: usize) -> (u64, u64) {
    let from = random.below(len + 1);
    let count = match random.below(3) {
        0 => random.below(len - from + 1),
        _ => random.below((len - from).min(300) + 1),
    };
    make::or_outside(random, from as u64, count as u64, len)
}

/// Reads a random range, mostly with room for it.
fn read(compare: &mut Compare, reader: &Reader, len: usize) -> End {
    let (from, count) = range(&mut compare.random, len);
    let room = make::room(&mut compare.random, count, len);
    let out = compare.random.bytes(room);
    reader.read(compare, from, count, &out)
}

fn good(compare: &mut Compare, combo: Combo) {
    for (len, reads) in [(0, 50), (70, 500), (40_000, 300), (100_000, 300)] {
        let log = Log::new(&mut compare.random, combo, len);
        let reader = Reader::new(compare, &log);
        for _ in 0..reads {
            let row = read(compare, &reader, len).row;
            assert!([0, 6, 7].contains(&row));
        }
    }
}

/// Some chunks of six are damaged, and others between the reads.
fn damaged(compare: &mut Compare, combo: Combo) {
    let (len, header) = (5 * CHUNK_LEN + 500, sizes(combo).header);
    let log = Log::new(&mut compare.random, combo, len);
    let mut reader = Reader::new(compare, &log);
    for i in 0..400 {
        if i % 100 == 0 {
            reader.file.clone_from(&log.file);
        }
        if i % 25 == 0 {
            flip(&mut reader.file[header..], &mut compare.random);
        }
        let row = read(compare, &reader, len).row;
        assert!([0, 6, 7, 10].contains(&row));
    }
}

/// It ends as it did before all reads between: they are made forwards and then
/// backwards.
fn again(compare: &mut Compare, combo: Combo) {
    let len = 2 * CHUNK_LEN + 500;
    let log = Log::new(&mut compare.random, combo, len);
    let reader = Reader::new(compare, &log);
    let random = &mut compare.random;
    let mut ranges: Vec<_> = (0..60).map(|_| range(random, len)).collect();
    let out = random.bytes(len);
    let mut ends = |ranges: &[(u64, u64)]| -> Vec<_> {
        let read = |&(from, count): &(u64, u64)| reader.read(compare, from, count, &out);
        ranges.iter().map(read).collect()
    };
    let first = ends(&ranges);
    ranges.reverse();
    let mut later = ends(&ranges);
    later.reverse();
    assert!(first == later, "other ends");
}
