//! Files that are damaged.

use super::{done, refused, Log};
use crate::case::Case;
use crate::compare::Compare;
use crate::format::{sizes, Sizes};
use crate::log::RANGES_OF_THREE_CHUNKS;
use crate::part::{Part, Run::Each};
use second::vault::{Combo, CHUNK_LEN};

pub const PARTS: &[Part] = &[
    ("mends: only covering chunks are looked at", Each(covering)),
    ("mends: every bit of a short file", Each(bits)),
    ("mends: damage in every part", Each(places)),
];

fn flipped(mend: &Case, place: usize, mask: u8) -> Case {
    let mut damaged = mend.clone();
    damaged.buffers[0][place] ^= mask;
    damaged
}

/// A mend is done whatever the chunks hold that do not cover its range, and these
/// stay as they are. It is refused with the lowest covering one that is damaged.
fn covering(compare: &mut Compare, combo: Combo) {
    let (log, sizes) = (
        Log::new(&mut compare.random, combo, 3 * CHUNK_LEN),
        sizes(combo),
    );
    for (from, count, [first, end]) in RANGES_OF_THREE_CHUNKS {
        let mend = log.mend(&mut compare.random, from as usize, count as usize);
        for damaged in 0..8 {
            let is_damaged = |chunk: &usize| damaged >> chunk & 1 == 1;
            let mut file = mend.clone();
            file.buffers[0] = log.damaged(&mut compare.random, damaged);
            match (first..end).find(is_damaged) {
                None => drop(done(compare, &log, &file)),
                Some(chunk) => {
                    let at = refused(compare, &file, 10);
                    assert_eq!(at, Some(chunk as u64));
                }
            }
            let place = compare.random.below(sizes.header);
            refused(compare, &flipped(&file, place, 8), 9);
        }
    }
}

fn bits(compare: &mut Compare, combo: Combo) {
    let header = sizes(combo).header;
    for len in [0, 1, 40] {
        let log = Log::new(&mut compare.random, combo, len);
        let whole = log.mend(&mut compare.random, 0, len);
        let last = log.mend(&mut compare.random, len.saturating_sub(1), len.min(1));
        let none = log.mend(&mut compare.random, len / 2, 0);
        for place in 0..log.file.len() {
            for bit in 0..8 {
                for mend in [&whole, &last, &none] {
                    let damaged = flipped(mend, place, 1 << bit);
                    match (place < header, mend.range()) {
                        (true, _) => drop(refused(compare, &damaged, 9)),
                        (false, (_, 0)) => drop(done(compare, &log, &damaged)),
                        (false, _) => assert_eq!(refused(compare, &damaged, 10), Some(0)),
                    }
                }
            }
        }
    }
}

/// The first and last bytes of the nonce, the ciphertext and the tag of each of
/// three chunks; and some places between.
fn places(compare: &mut Compare, combo: Combo) {
    let Sizes {
        nonce,
        header,
        overhead,
        chunk,
        ..
    } = sizes(combo);
    let tag = overhead - nonce;
    let log = Log::new(&mut compare.random, combo, 2 * CHUNK_LEN + 50);
    let file = log.file.len();
    let middle = log.mend(&mut compare.random, CHUNK_LEN + 100, 100);
    let whole = log.mend(&mut compare.random, 0, 2 * CHUNK_LEN + 50);
    for number in 0..3 {
        let start = header + number * chunk;
        let end = file.min(start + chunk);
        let mut places = vec![start, start + nonce - 1, start + nonce];
        places.extend([end - tag - 1, end - tag, end - 1]);
        places.extend((0..4).map(|_| start + compare.random.below(end - start)));
        for place in places {
            let at = refused(compare, &flipped(&whole, place, 0x10), 10);
            assert_eq!(at, Some(number as u64));
            let damaged = flipped(&middle, place, 0x10);
            match number {
                1 => assert_eq!(refused(compare, &damaged, 10), Some(1)),
                _ => drop(done(compare, &log, &damaged)),
            }
        }
    }
}
