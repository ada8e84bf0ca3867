//! Files that are mended while they are kept open.

use super::{gives, Reader};
use crate::case::Case;
use crate::compare::Compare;
use crate::format::sizes;
use crate::log::Log;
use crate::part::{Part, Run::Each};
use second::vault::{Combo, CHUNK_LEN};
use std::ops::Range;

pub const PARTS: &[Part] = &[
    ("readers: mends between reads", Each(between_reads)),
    ("readers: mends that are refused", Each(refused_mends)),
    ("readers: damage that a mend leaves", Each(damage)),
];

/// Both programs mend the log. Gives it as it is then.
fn mended(compare: &mut Compare, log: &Log, mend: &Case) -> Log {
    let end = compare.end(mend);
    assert_eq!(end.row, 0);
    let mended = log.mended(mend);
    assert!(end.buffers[0] == mended.file, "another file");
    mended
}

/// Reads around both ends of a range.
fn reads(compare: &mut Compare, reader: &Reader, log: &Log, range: &Range<usize>) {
    let cleartext = log.cleartext();
    for place in [range.start, range.end] {
        let from = place.saturating_sub(20);
        let part = &cleartext[from..cleartext.len().min(place + 20)];
        let out = compare.random.bytes(45);
        let end = reader.read(compare, from as u64, part.len() as u64, &out);
        assert_eq!((end.row, end.length), (0, part.len() as u64));
        assert!(end.buffers[0].starts_with(part), "another cleartext");
    }
}

/// A reader that was made before all mends reads the file as it is now, and so
/// does one that is made now. With the old bytes it reads what was there.
fn between_reads(compare: &mut Compare, combo: Combo) {
    for len in [60, 300, 70_000] {
        let mut log = Log::new(&mut compare.random, combo, len);
        let first = Reader::new(compare, &log);
        for _ in 0..12 {
            let from = compare.random.below(len);
            let count = compare.random.below((len - from).min(40_000) + 1);
            let mend = log.mend(&mut compare.random, from, count);
            let old = first.with_file(log.file.clone());
            let new = mended(compare, &log, &mend);
            let before = first.with_file(new.file.clone());
            let after = Reader::new(compare, &new);
            assert!(after.keys == first.keys, "other keys");
            let range = from..from + count;
            reads(compare, &before, &new, &range);
            reads(compare, &after, &new, &range);
            reads(compare, &old, &log, &range);
            log = new;
        }
    }
}

/// They change nothing.
fn refused_mends(compare: &mut Compare, combo: Combo) {
    let log = Log::new(&mut compare.random, combo, CHUNK_LEN + 60);
    let reader = Reader::new(compare, &log);
    for (from, count) in [(10, 20), (CHUNK_LEN - 5, 10)] {
        let mut mend = log.mend(&mut compare.random, from, count);
        mend.inputs[2].pop();
        let end = compare.end(&mend);
        assert_eq!(end.row, 1);
        let reader = reader.with_file(end.buffers[0].clone());
        reads(compare, &reader, &log, &(from..from + count));
    }
}

/// A chunk that is damaged stays so when another one is mended; and the header is
/// not looked at, though a mend would refuse it.
fn damage(compare: &mut Compare, combo: Combo) {
    let log = Log::new(&mut compare.random, combo, 2 * CHUNK_LEN);
    let reader = Reader::new(compare, &log);
    let mut mend = log.mend(&mut compare.random, 100, 50);
    let last = log.file.len() - 1;
    mend.buffers[0][last] ^= 1;
    let end = compare.end(&mend);
    assert_eq!(end.row, 0);
    let mut reader = reader.with_file(end.buffers[0].clone());
    let (from, count) = (90, 70);
    assert_eq!(reader.read(compare, from, count, &[7; 70]).row, 0);
    let end = reader.read(compare, CHUNK_LEN as u64 - 1, 2, &[7; 2]);
    assert_eq!((end.row, end.at), (10, 1));

    reader.file[sizes(combo).header - 1] ^= 1;
    mend.buffers[0].clone_from(&reader.file);
    mend.inputs[2].fill(0x5a);
    assert_eq!(compare.row(&mend), 9);
    let mended = log.mended(&mend);
    let read = reader.reading(from, count, &[7; 75]);
    gives(compare, &read, &mended.cleartext()[90..160]);
}
