//! Lengths, numbers and ranges, often at edges.

use crate::common::random::Random;
use crate::format::LONGEST_NAME;
use second::vault::CHUNK_LEN;

pub fn chunk_len(random: &mut Random) -> usize {
    match random.below(20) {
        0..16 => 1 + random.below(100),
        16 => 1 + random.below(CHUNK_LEN),
        _ => CHUNK_LEN - random.below(3),
    }
}

/// Mostly short, and often at the edges of chunks.
pub fn file_len(random: &mut Random) -> usize {
    match random.below(20) {
        0..14 => random.below(100),
        14..17 => CHUNK_LEN - 2 + random.below(5),
        17 | 18 => 2 * CHUNK_LEN - 2 + random.below(5),
        _ => random.below(4 * CHUNK_LEN),
    }
}

/// Mostly near the shortest that is asked for, and often at the longest.
pub fn name_len(random: &mut Random, shortest: usize) -> usize {
    match random.below(4) {
        0 | 1 => shortest + random.below(200),
        2 => shortest + random.below(LONGEST_NAME + 1 - shortest),
        _ => LONGEST_NAME - random.below(20),
    }
}

pub fn number_of_chunk(random: &mut Random) -> u64 {
    match random.below(3) {
        0 => random.below(600) as u64,
        1 => u64::MAX - random.below(3) as u64,
        _ => random.word() >> random.below(64),
    }
}

/// A range inside a cleartext of this length.
pub fn range(random: &mut Random, len: usize) -> (u64, u64) {
    let from = match random.below(4) {
        0 => place(random, len),
        _ => random.below(len + 1),
    };
    let count = match random.below(6) {
        0 => 0,
        1 => len - from,
        2 => place(random, len - from),
        3 => random.below((len - from).min(200) + 1),
        _ => random.below(len - from + 1),
    };
    (from as u64, count as u64)
}

/// A place at the edge of a chunk or of the text.
pub fn place(random: &mut Random, len: usize) -> usize {
    let edge = random.below(len / CHUNK_LEN + 1) * CHUNK_LEN;
    let place = (edge + random.below(3)).saturating_sub(1);
    place.min(len)
}

/// The range, mostly; else over the end, behind it, or with numbers of any size.
pub fn or_outside(random: &mut Random, from: u64, count: u64, len: usize) -> (u64, u64) {
    match random.below(12) {
        0 => (from, len as u64 - from + 1 + random.below(3) as u64),
        1 => (random.word() >> random.below(64), count),
        2 => (from, random.word() >> random.below(64)),
        _ => (from, count),
    }
}

/// The room for a range of a cleartext of this length, mostly enough.
pub fn room(random: &mut Random, count: u64, len: usize) -> usize {
    match (count as usize).min(len) {
        need if random.below(8) == 0 => random.below(need + 1),
        need => need + random.below(3),
    }
}
