//! Nonces that are lent: their number, and those that come again.

use super::{done, refused, Log};
use crate::case::Case;
use crate::compare::Compare;
use crate::fault::resize;
use crate::format::sizes;
use crate::make::{chunk_nonces, covered};
use crate::part::{Part, Run::Each};
use second::vault::{Combo, CHUNK_LEN};

pub const PARTS: &[Part] = &[
    ("mends: number of nonces", Each(number)),
    ("mends: repeated nonces", Each(repeated)),
    ("mends: nonces of the file", Each(of_file)),
    ("mends: nonces of damaged chunks", Each(of_damaged)),
    ("mends: nonces before damage", Each(before_damage)),
    ("mends: nonces that may come again", Each(allowed)),
    ("mends: nonces that differ in one bit", Each(one_bit)),
];

/// Six chunks.
const LEN: usize = 5 * CHUNK_LEN + 100;

/// A mend that covers those from the second to the fifth.
fn four_chunks(compare: &mut Compare, log: &Log) -> Case {
    log.mend(&mut compare.random, CHUNK_LEN + 5, 3 * CHUNK_LEN)
}

/// The mend with its nonce at this place set.
fn with_nonce(mend: &Case, place: usize, nonce: &[u8]) -> Case {
    let mut mend = mend.clone();
    mend.inputs[2][place * nonce.len()..][..nonce.len()].copy_from_slice(nonce);
    mend
}

/// Every number of bytes, also where the range is not inside.
fn number(compare: &mut Compare, combo: Combo) {
    let log = Log::new(&mut compare.random, combo, 70_000);
    for (from, count) in [
        (0, 0),
        (0, 1),
        (0, 32_768),
        (0, 32_769),
        (32_767, 1),
        (32_767, 2),
        (32_768, 1),
        (32_767, 32_770),
        (69_999, 1),
        (69_999, 2),
        (70_000, 0),
        (70_001, 0),
        (98_303, 2),
        (usize::MAX, 1),
        (usize::MAX, 2),
    ] {
        let mend = log.mend(&mut compare.random, from, count);
        let inside = from.checked_add(count).is_some_and(|end| end <= 70_000);
        for len in 0..=66 {
            let mut other = mend.clone();
            resize(&mut other.inputs[2], len, &mut compare.random);
            if len != covered(from as u64, count) * sizes(combo).nonce {
                refused(compare, &other, 1);
            } else if inside {
                done(compare, &log, &other);
            } else {
                refused(compare, &other, 6);
            }
        }
    }
}

/// Neighbours, and others.
fn repeated(compare: &mut Compare, combo: Combo) {
    let log = Log::new(&mut compare.random, combo, LEN);
    let mend = four_chunks(compare, &log);
    for one in 0..4 {
        for other in (0..4).filter(|&other| other != one) {
            let nonce = &mend.inputs[2].chunks(sizes(combo).nonce).nth(other);
            let repeated = with_nonce(&mend, one, nonce.expect("one of four"));
            refused(compare, &repeated, 8);
        }
    }
}

/// Of each chunk, be it covered or not, at each place.
fn of_file(compare: &mut Compare, combo: Combo) {
    let log = Log::new(&mut compare.random, combo, LEN);
    let mend = four_chunks(compare, &log);
    for nonce in chunk_nonces(combo, &log.file) {
        for place in 0..4 {
            refused(compare, &with_nonce(&mend, place, nonce), 8);
        }
    }
    // Also where the new bytes are the old ones.
    let mut same = log.mend(&mut compare.random, 100, 50);
    same.inputs[1] = log.cleartext()[100..150].to_vec();
    same.inputs[2] = chunk_nonces(combo, &log.file)[0].to_vec();
    refused(compare, &same, 8);
}

/// A nonce counts as it stands in the file, whatever the tag says of its chunk.
fn of_damaged(compare: &mut Compare, combo: Combo) {
    let (log, sizes) = (Log::new(&mut compare.random, combo, LEN), sizes(combo));
    for chunk in 0..6 {
        let mut mend = four_chunks(compare, &log);
        let start = sizes.header + chunk * sizes.chunk;
        let place = start..start + sizes.nonce;
        mend.buffers[0][place.end] ^= 1;
        let nonce = &log.file[place.clone()];
        refused(compare, &with_nonce(&mend, 2, nonce), 8);
        mend.buffers[0][place.end] ^= 1;
        mend.buffers[0][place.end - 1] ^= 0x40;
        let nonce = mend.buffers[0][place].to_vec();
        refused(compare, &with_nonce(&mend, 2, &nonce), 8);
    }
}

/// The nonce that a chunk had before its nonce was damaged is no longer in the
/// file.
fn before_damage(compare: &mut Compare, combo: Combo) {
    let (log, sizes) = (Log::new(&mut compare.random, combo, LEN), sizes(combo));
    for chunk in 0..6 {
        let mut mend = four_chunks(compare, &log);
        let start = sizes.header + chunk * sizes.chunk;
        let place = start..start + sizes.nonce;
        mend.buffers[0][start] ^= 0x40;
        let mend = with_nonce(&mend, 2, &log.file[place.clone()]);
        if (1..5).contains(&chunk) {
            assert_eq!(refused(compare, &mend, 10), Some(chunk as u64));
        } else {
            // The chunks that are covered are the same in a log with that nonce.
            let mut write = log.write.clone();
            write.inputs[3][chunk * sizes.nonce] ^= 0x40;
            done(compare, &Log::of(combo, write), &mend);
        }
    }
}

/// The header's nonce, and bytes of the file that are none.
fn allowed(compare: &mut Compare, combo: Combo) {
    let (log, sizes) = (Log::new(&mut compare.random, combo, LEN), sizes(combo));
    let mend = four_chunks(compare, &log);
    let chunk = sizes.header + sizes.chunk;
    let last = log.file.len() - sizes.nonce;
    for start in [0, 1, chunk - sizes.nonce, chunk - 1, chunk + 1, last] {
        let nonce = &log.file[start..start + sizes.nonce];
        let other = with_nonce(&mend, 1, nonce);
        done(compare, &log, &other);
        refused(compare, &with_nonce(&other, 3, nonce), 8);
    }
}

/// From each other, and from those in the file.
fn one_bit(compare: &mut Compare, combo: Combo) {
    let log = Log::new(&mut compare.random, combo, CHUNK_LEN + 100);
    let old = chunk_nonces(combo, &log.file);
    for byte in 0..sizes(combo).nonce {
        let [mut near_first, mut near_second] = [old[0].to_vec(), old[1].to_vec()];
        near_first[byte] ^= 1;
        near_second[byte] ^= 0x80;
        let mut mend = log.mend(&mut compare.random, CHUNK_LEN - 1, 2);
        mend.inputs[2] = [&near_first[..], &near_second].concat();
        done(compare, &log, &mend);
        near_second.clone_from(&near_first);
        near_second[byte] ^= 0x10;
        mend.inputs[2] = [near_first, near_second].concat();
        done(compare, &log, &mend);
    }
}
