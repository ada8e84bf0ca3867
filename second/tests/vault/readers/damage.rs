//! Files that are damaged, before a reader was made or since.

use super::{gives, refused, Reader};
use crate::compare::Compare;
use crate::fault::flip;
use crate::format::{sizes, Sizes};
use crate::log::{Log, RANGES_OF_THREE_CHUNKS};
use crate::part::{Part, Run::Each};
use second::vault::{Combo, CHUNK_LEN};

pub const PARTS: &[Part] = &[
    ("readers: only covering chunks are read", Each(covering)),
    ("readers: every bit of a short file", Each(bits)),
    ("readers: damage in every part", Each(places)),
    ("readers: headers damaged later", Each(headers)),
];

/// A range is read whatever the chunks hold that do not cover it, and is refused
/// with the lowest covering one that is damaged.
fn covering(compare: &mut Compare, combo: Combo) {
    let log = Log::new(&mut compare.random, combo, 3 * CHUNK_LEN);
    let good = Reader::new(compare, &log);
    let out = compare.random.bytes(3 * CHUNK_LEN);
    for damaged in 0..8 {
        let is_damaged = |chunk: &usize| damaged >> chunk & 1 == 1;
        let reader = good.with_file(log.damaged(&mut compare.random, damaged));
        for (from, count, [first, end]) in RANGES_OF_THREE_CHUNKS {
            let bad = (first..end).find(is_damaged).map(|chunk| chunk as u64);
            let end = reader.read(compare, from, count, &out);
            assert_eq!(end.row, if bad.is_some() { 10 } else { 0 });
            assert_eq!(end.place(), bad);
        }
    }
}

/// Those of the nonce count as those of a chunk do: not for an empty range. The
/// other ones of the header do not count at all.
fn bits(compare: &mut Compare, combo: Combo) {
    let Sizes { nonce, header, .. } = sizes(combo);
    for len in [0, 1, 40] {
        let log = Log::new(&mut compare.random, combo, len);
        let good = Reader::new(compare, &log);
        for bit in 0..8 * log.file.len() {
            let mut reader = good.with_file(log.file.clone());
            reader.file[bit / 8] ^= 1 << (bit % 8);
            for count in [0, len.min(1), len] {
                let read = reader.reading(0, count as u64, &[7; 41]);
                if count == 0 || (nonce..header).contains(&(bit / 8)) {
                    gives(compare, &read, &log.cleartext()[..count]);
                } else {
                    assert_eq!(refused(compare, &read, 10), Some(0));
                }
            }
        }
    }
}

/// The first and last bytes of the nonce, the ciphertext and the tag of each of
/// three chunks; and some places between.
fn places(compare: &mut Compare, combo: Combo) {
    let Sizes {
        nonce,
        header,
        overhead,
        chunk,
        ..
    } = sizes(combo);
    let (tag, len) = (overhead - nonce, 2 * CHUNK_LEN + 50);
    let log = Log::new(&mut compare.random, combo, len);
    let good = Reader::new(compare, &log);
    let out = compare.random.bytes(len);
    for number in 0..3 {
        let start = header + number * chunk;
        let end = log.file.len().min(start + chunk);
        let mut places = vec![start, start + nonce - 1, start + nonce];
        places.extend([end - tag - 1, end - tag, end - 1]);
        places.extend((0..4).map(|_| start + compare.random.below(end - start)));
        for place in places {
            let mut reader = good.with_file(log.file.clone());
            reader.file[place] ^= 0x10;
            let whole = reader.read(compare, 0, len as u64, &out);
            assert_eq!((whole.row, whole.at), (10, number as u64));
            let middle = reader.read(compare, CHUNK_LEN as u64 + 100, 100, &out);
            assert_eq!(middle.row, if number == 1 { 10 } else { 0 });
        }
    }
}

/// With another nonce no chunk is good, and all else in the header may be another
/// one. The range read refuses either.
fn headers(compare: &mut Compare, combo: Combo) {
    let Sizes { nonce, header, .. } = sizes(combo);
    for (len, from, count) in [(50, 0, 50), (50, 7, 30), (80_000, 32_760, 40_000)] {
        let log = Log::new(&mut compare.random, combo, len);
        let good = Reader::new(compare, &log);
        let part = &log.cleartext()[from..from + count];
        let (from, count) = (from as u64, count as u64);
        let out = compare.random.bytes(40_100);
        for _ in 0..20 {
            let mut reader = good.with_file(log.file.clone());
            let other = compare.random.bytes(header - nonce);
            reader.file[nonce..header].copy_from_slice(&other);
            gives(compare, &reader.reading(from, count, &out), part);

            flip(&mut reader.file[..nonce], &mut compare.random);
            let read = reader.reading(from, count, &out);
            assert_eq!(refused(compare, &read, 10), Some(0));
            gives(compare, &reader.reading(from, 0, &out), &[]);
        }
    }
}
