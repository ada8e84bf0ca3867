//! The longest file.

use super::{done, reads, refused, Log};
use crate::compare::Compare;
use crate::format::{sizes, LONGEST_CLEARTEXT};
use crate::make::chunk_nonces;
use crate::part::{Part, Run::Each};
use second::vault::{Combo, CHUNK_LEN};

pub const PARTS: &[Part] = &[("mends: the longest file", Each(longest))];

fn longest(compare: &mut Compare, combo: Combo) {
    let log = Log::new(&mut compare.random, combo, LONGEST_CLEARTEXT);
    let mended = whole(compare, &log);
    outside(compare, &mended);
    nonces_of_first_and_last(compare, &mended);
    last_chunks(compare, &mended);
}

/// All 512 chunks. No two nonces are equal, also far apart, and none is in the
/// file already.
fn whole(compare: &mut Compare, log: &Log) -> Log {
    let nonce = sizes(log.combo).nonce;
    let mut mend = log.mend(&mut compare.random, 0, LONGEST_CLEARTEXT);
    assert_eq!(mend.inputs[2].len(), 512 * nonce);
    let mended = done(compare, log, &mend);

    let first = mend.inputs[2][..nonce].to_vec();
    mend.inputs[2].truncate(511 * nonce);
    refused(compare, &mend, 1);
    for other in [&first, chunk_nonces(log.combo, &log.file)[256]] {
        mend.inputs[2].truncate(511 * nonce);
        mend.inputs[2].extend(other);
        refused(compare, &mend, 8);
    }
    mended
}

fn outside(compare: &mut Compare, log: &Log) {
    for (from, count) in [(LONGEST_CLEARTEXT - 1, 2), (LONGEST_CLEARTEXT + 1, 0)] {
        let mend = log.mend(&mut compare.random, from, count);
        refused(compare, &mend, 6);
    }
}

fn nonces_of_first_and_last(compare: &mut Compare, log: &Log) {
    let mut mend = log.mend(&mut compare.random, 0, 1);
    for number in [0, 511] {
        mend.inputs[2] = chunk_nonces(log.combo, &log.file)[number].to_vec();
        refused(compare, &mend, 8);
    }
}

/// Over the last border, and up to the last byte.
fn last_chunks(compare: &mut Compare, log: &Log) {
    let sizes = sizes(log.combo);
    let from = LONGEST_CLEARTEXT - CHUNK_LEN - 1;
    let mut mend = log.mend(&mut compare.random, from, CHUNK_LEN + 1);
    let damage = sizes.header + 511 * sizes.chunk + 100;
    mend.buffers[0][damage] ^= 4;
    assert_eq!(refused(compare, &mend, 10), Some(511));
    mend.buffers[0][damage] ^= 4;
    let mended = done(compare, log, &mend);
    reads(compare, &mended, from..LONGEST_CLEARTEXT);
}
