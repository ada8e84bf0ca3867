//! Chunks at other places or of other files, and files that repeat a nonce.

use super::{done, refused, Log};
use crate::compare::Compare;
use crate::format::sizes;
use crate::part::{Part, Run::Each};
use second::vault::{Combo, CHUNK_LEN};

pub const PARTS: &[Part] = &[
    ("mends: chunks in another order", Each(moved)),
    ("mends: chunks of another file", Each(of_another)),
    (
        "mends: repeated nonces from elsewhere",
        Each(from_elsewhere),
    ),
];

/// Each chunk of three is mended by itself: it is good only at its own place.
fn moved(compare: &mut Compare, combo: Combo) {
    let (log, sizes) = (
        Log::new(&mut compare.random, combo, 3 * CHUNK_LEN),
        sizes(combo),
    );
    for order in [[0, 2, 1], [1, 0, 2], [0, 1, 1], [2, 1, 0]] {
        for number in 0..3 {
            let mut mend = log.mend(&mut compare.random, number * CHUNK_LEN + 7, 9);
            mend.buffers[0].truncate(sizes.header);
            for i in order {
                let chunk = &log.file[sizes.header + i * sizes.chunk..][..sizes.chunk];
                mend.buffers[0].extend(chunk);
            }
            if order[number] == number {
                done(compare, &log, &mend);
            } else {
                assert_eq!(refused(compare, &mend, 10), Some(number as u64));
            }
        }
    }
}

/// Of a file whose header nonce is another one, and of one whose content key is.
/// The MAC of SIV_CTRMAC does not cover the key.
fn of_another(compare: &mut Compare, combo: Combo) {
    let sizes = sizes(combo);
    let log = Log::new(&mut compare.random, combo, 2 * CHUNK_LEN);
    for input in [1, 2] {
        let mut write = log.write.clone();
        write.inputs[input][0] ^= 1;
        let other = Log::of(combo, write);
        for number in 0..2 {
            let mut mend = log.mend(&mut compare.random, number * CHUNK_LEN + 7, 9);
            let start = sizes.header + number * sizes.chunk;
            let place = start..start + sizes.chunk;
            mend.buffers[0][place.clone()].copy_from_slice(&other.file[place]);
            if (combo, input) == (Combo::SivCtrmac, 2) {
                assert_eq!(compare.row(&mend), 0);
            } else {
                assert_eq!(refused(compare, &mend, 10), Some(number as u64));
            }
        }
    }
}

/// Two chunks with one nonce, as another program may have written them: either is
/// mended, and both.
fn from_elsewhere(compare: &mut Compare, combo: Combo) {
    let sizes = sizes(combo);
    let log = Log::new(&mut compare.random, combo, CHUNK_LEN + 40);
    // With exchanged nonces, the second chunk has that of the first.
    let mut write = log.write.clone();
    write.inputs[3].rotate_left(sizes.nonce);
    let other = Log::of(combo, write);
    let second = sizes.header + sizes.chunk;
    for (from, count) in [(10, 20), (CHUNK_LEN + 10, 20), (CHUNK_LEN - 1, 2)] {
        let mut mend = log.mend(&mut compare.random, from, count);
        mend.buffers[0].truncate(second);
        mend.buffers[0].extend(&other.file[second..]);
        done(compare, &log, &mend);
        let nonce = log.file[sizes.header..][..sizes.nonce].to_vec();
        mend.inputs[2][..sizes.nonce].copy_from_slice(&nonce);
        refused(compare, &mend, 8);
    }
}
