//! Mends.

use super::{nonces, open_file};
use crate::case::{Call, Case};
use crate::common::random::Random;
use crate::format::{combo_of, sizes};
use second::vault::{Combo, CHUNK_LEN};

/// A mend of the file of a random cleartext.
pub fn mend(random: &mut Random, combo: Combo, len: usize, from: u64, count: usize) -> Case {
    let open = open_file(random, combo, len);
    let [vault, file] = &open.inputs[..] else {
        panic!("not what opens a file");
    };
    mend_file(random, vault, file, from, count)
}

/// A mend of this file, with random bytes and fresh nonces.
pub fn mend_file(random: &mut Random, vault: &[u8], file: &[u8], from: u64, count: usize) -> Case {
    let new = random.bytes(count);
    let combo = combo_of(vault).expect("a vault");
    let nonces = fresh_nonces(random, combo, file, covered(from, count));
    Case {
        call: Call::Mend,
        inputs: vec![vault.to_vec(), new, nonces],
        numbers: vec![from],
        buffers: vec![file.to_vec()],
    }
}

/// How many chunks have bytes of the range. Nothing wraps.
pub fn covered(from: u64, count: usize) -> usize {
    let (from, count, chunk) = (u128::from(from), count as u128, CHUNK_LEN as u128);
    match count {
        0 => 0,
        _ => ((from + count - 1) / chunk - from / chunk + 1) as usize,
    }
}

/// Nonces that differ from each other and from those in the file.
pub fn fresh_nonces(random: &mut Random, combo: Combo, file: &[u8], count: usize) -> Vec<u8> {
    let old = chunk_nonces(combo, file);
    loop {
        let new = nonces(random, combo, count);
        let mut each = new.chunks(sizes(combo).nonce);
        if each.all(|nonce| !old.contains(&nonce)) {
            return new;
        }
    }
}

/// The nonces in a file, by chunks.
pub fn chunk_nonces(combo: Combo, file: &[u8]) -> Vec<&[u8]> {
    let sizes = sizes(combo);
    let chunks = file.get(sizes.header..).unwrap_or(&[]).chunks(sizes.chunk);
    chunks
        .filter_map(|chunk| chunk.get(..sizes.nonce))
        .collect()
}
