//! What SHA-1 and SHA-256 share (FIPS 180-4): words of 32 bits, blocks of 64
//! bytes and the padding.

pub const BLOCK_LEN: usize = 64;

/// The words in a block.
pub const BLOCK_WORDS: usize = 16;

/// The bytes of the length at the end of the last block.
const LENGTH_LEN: usize = 8;

/// The hash value of one of the two functions.
pub trait HashValue: AsRef<[u32]> {
    /// The value before the first block (section 5.3).
    const INITIAL: Self;

    /// The hash computation of one block (section 6).
    fn compress(&mut self, block: &[u8; BLOCK_LEN]);
}

/// The state after a part of a message: the hash of its whole blocks, and the
/// start of the next one.
#[derive(Clone)]
pub struct Running<Hash, const DIGEST_LEN: usize> {
    hash: Hash,
    block: [u8; BLOCK_LEN],
    len: u64,
}

impl<Hash: HashValue, const DIGEST_LEN: usize> Running<Hash, DIGEST_LEN> {
    pub fn new() -> Self {
        Running {
            hash: Hash::INITIAL,
            block: [0; BLOCK_LEN],
            len: 0,
        }
    }

    pub fn update(&mut self, mut data: &[u8]) {
        let filled = self.filled();
        self.len += data.len() as u64;
        if filled > 0 {
            let (start, later) = data.split_at(data.len().min(BLOCK_LEN - filled));
            self.block[filled..][..start.len()].copy_from_slice(start);
            if filled + start.len() < BLOCK_LEN {
                return;
            }
            self.hash.compress(&self.block);
            data = later;
        }
        let (blocks, rest) = data.as_chunks();
        for block in blocks {
            self.hash.compress(block);
        }
        self.block[..rest.len()].copy_from_slice(rest);
    }

    /// Pads with a one bit, zeros and the length in bits.
    pub fn finish(mut self) -> [u8; DIGEST_LEN] {
        let filled = self.filled();
        let length_start = BLOCK_LEN - LENGTH_LEN;
        self.block[filled] = 0x80;
        self.block[filled + 1..].fill(0);
        if filled >= length_start {
            self.hash.compress(&self.block);
            self.block.fill(0);
        }
        self.block[length_start..].copy_from_slice(&(8 * self.len).to_be_bytes());
        self.hash.compress(&self.block);
        let mut digest = [0; DIGEST_LEN];
        for (bytes, word) in digest.as_chunks_mut().0.iter_mut().zip(self.hash.as_ref()) {
            *bytes = word.to_be_bytes();
        }
        digest
    }

    /// The bytes in `block` that wait for the rest of it.
    fn filled(&self) -> usize {
        (self.len % BLOCK_LEN as u64) as usize
    }
}

impl<Hash: HashValue, const DIGEST_LEN: usize> Default for Running<Hash, DIGEST_LEN> {
    fn default() -> Self {
        Running::new()
    }
}

/// The words of a block, with which its message schedule starts.
#[inline(always)]
pub fn words(block: &[u8; BLOCK_LEN]) -> [u32; BLOCK_WORDS] {
    let mut words = [0; BLOCK_WORDS];
    for (word, bytes) in words.iter_mut().zip(block.as_chunks().0) {
        *word = u32::from_be_bytes(*bytes);
    }
    words
}

/// Adds the state after the steps of a block.
pub fn add<const N: usize>(hash: &mut [u32; N], state: [u32; N]) {
    for (word, add) in hash.iter_mut().zip(state) {
        *word = word.wrapping_add(add);
    }
}

/// The function Ch (section 4.1).
pub fn choice(x: u32, y: u32, z: u32) -> u32 {
    (x & (y ^ z)) ^ z
}

/// The function Maj (section 4.1).
pub fn majority(x: u32, y: u32, z: u32) -> u32 {
    ((x ^ y) & (y ^ z)) ^ y
}
