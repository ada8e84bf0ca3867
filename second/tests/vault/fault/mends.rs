//! Faults of what is lent to mend a file.

use super::content::repeat;
use super::resize;
use crate::case::Case;
use crate::common::random::Random;
use crate::format::sizes;
use crate::make::{self, covered};

/// Behind the end or over it, also where the sum wraps, with a nonce for each
/// chunk that such a range has bytes in.
pub fn range(case: &mut Case, random: &mut Random) {
    let end = make::cleartext_len(case);
    let more = 1 + random.below(3);
    let near = random.below(end + 1);
    let (from, count) = match random.below(6) {
        0 => (u64::MAX, 1),
        1 => ((end + more) as u64, random.below(3)),
        2 => (near as u64, end - near + more),
        3 => (u64::MAX - near as u64, near + more),
        4 => (u64::MAX - random.below(40_000) as u64, random.below(70_000)),
        _ => (random.word() | 1 << 40, random.below(100)),
    };
    case.numbers = vec![from];
    resize(&mut case.inputs[1], count, random);
    let nonce = sizes(case.combo().expect("a vault")).nonce;
    resize(&mut case.inputs[2], covered(from, count) * nonce, random);
}

/// Equal to another one that is lent, or to that of any chunk.
pub fn repeated_nonce(case: &mut Case, random: &mut Random) -> bool {
    let combo = case.combo().expect("a vault");
    let len = sizes(combo).nonce;
    let [_, _, nonces] = &mut case.inputs[..] else {
        panic!("not what mends a file");
    };
    if nonces.is_empty() {
        return false;
    }
    if random.below(2) == 0 && repeat(nonces, len, random) {
        return true;
    }
    let old = make::chunk_nonces(combo, &case.buffers[0]);
    let place = random.below(nonces.len() / len) * len;
    nonces[place..place + len].copy_from_slice(old[random.below(old.len())]);
    true
}
