//! Files, each with the call that wrote it.

use crate::case::Case;
use crate::common::random::Random;
use crate::fault::flip;
use crate::format::sizes;
use crate::make;
use second::vault::{Combo, CHUNK_LEN};
use std::ops::Range;

/// Ranges of three chunks, with the first chunk of each and the one behind its
/// last.
pub const RANGES_OF_THREE_CHUNKS: [(u64, u64, [usize; 2]); 12] = [
    (0, 1, [0, 1]),
    (0, 32_768, [0, 1]),
    (0, 32_769, [0, 2]),
    (32_767, 2, [0, 2]),
    (32_768, 1, [1, 2]),
    (32_768, 32_768, [1, 2]),
    (32_767, 32_770, [0, 3]),
    (65_535, 2, [1, 3]),
    (98_303, 1, [2, 3]),
    (0, 98_304, [0, 3]),
    (32_768, 0, [1, 1]),
    (98_304, 0, [3, 3]),
];

pub struct Log {
    pub combo: Combo,
    pub write: Case,
    pub file: Vec<u8>,
}

impl Log {
    pub fn new(random: &mut Random, combo: Combo, len: usize) -> Self {
        Log::of(combo, make::write_file(random, combo, len))
    }

    /// What this call writes, by `second`.
    pub fn of(combo: Combo, write: Case) -> Self {
        let file = make::answer(&write);
        Log { combo, write, file }
    }

    pub fn vault(&self) -> &[u8] {
        &self.write.inputs[0]
    }

    pub fn cleartext(&self) -> &[u8] {
        &self.write.inputs[4]
    }

    /// Its file with a wrong bit in each chunk of a set, which has a bit for each.
    pub fn damaged(&self, random: &mut Random, set: usize) -> Vec<u8> {
        let (mut file, sizes) = (self.file.clone(), sizes(self.combo));
        let chunks = file[sizes.header..].chunks_mut(sizes.chunk);
        for (_, chunk) in chunks.enumerate().filter(|(i, _)| set >> i & 1 == 1) {
            flip(chunk, random);
        }
        file
    }

    /// The keys of its reader.
    pub fn reader_keys(&self) -> Vec<u8> {
        make::reader_keys(self.vault(), &self.write.inputs[2])
    }

    /// The call that mends a range of it, with random bytes and fresh nonces.
    pub fn mend(&self, random: &mut Random, from: usize, count: usize) -> Case {
        make::mend_file(random, self.vault(), &self.file, from as u64, count)
    }

    /// The log as it is written with the bytes and the nonces of a mend.
    pub fn mended(&self, mend: &Case) -> Self {
        let mut write = self.write.clone();
        let (from, [_, new, nonces]) = (mend.numbers[0] as usize, &mend.inputs[..]) else {
            panic!("not what mends a file");
        };
        let first = from / CHUNK_LEN * sizes(self.combo).nonce;
        write.inputs[3][first..][..nonces.len()].copy_from_slice(nonces);
        write.inputs[4][from..][..new.len()].copy_from_slice(new);
        Log::of(self.combo, write)
    }

    /// Where the chunks stand that a mend covers.
    pub fn covering(&self, mend: &Case) -> Range<usize> {
        let sizes = sizes(self.combo);
        let (from, count) = mend.range();
        let first = from as usize / CHUNK_LEN;
        let chunks = make::covered(from, count as usize);
        let [start, end] = [first, first + chunks].map(|i| sizes.header + i * sizes.chunk);
        start.min(self.file.len())..end.min(self.file.len())
    }
}
