//! SHA-256 (FIPS 180-4, section 6.2).

use crate::sha::{self, choice, majority, HashValue, Running, BLOCK_WORDS};

pub use crate::sha::BLOCK_LEN;

pub const DIGEST_LEN: usize = 32;

/// The state after a part of a message.
pub type Sha256 = Running<Hash, DIGEST_LEN>;

type Hash = [u32; 8];

/// The steps for a block.
const STEPS: usize = 64;

/// The steps after which each word of the state is back at its place, so that
/// in a loop over them none need be moved.
const TURN: usize = 8;

/// A constant for each step (section 4.2.2).
const CONSTANTS: [u32; STEPS] = [
    0x428a2f98, 0x71374491, 0xb5c0fbcf, 0xe9b5dba5, 0x3956c25b, 0x59f111f1, 0x923f82a4, 0xab1c5ed5,
    0xd807aa98, 0x12835b01, 0x243185be, 0x550c7dc3, 0x72be5d74, 0x80deb1fe, 0x9bdc06a7, 0xc19bf174,
    0xe49b69c1, 0xefbe4786, 0x0fc19dc6, 0x240ca1cc, 0x2de92c6f, 0x4a7484aa, 0x5cb0a9dc, 0x76f988da,
    0x983e5152, 0xa831c66d, 0xb00327c8, 0xbf597fc7, 0xc6e00bf3, 0xd5a79147, 0x06ca6351, 0x14292967,
    0x27b70a85, 0x2e1b2138, 0x4d2c6dfc, 0x53380d13, 0x650a7354, 0x766a0abb, 0x81c2c92e, 0x92722c85,
    0xa2bfe8a1, 0xa81a664b, 0xc24b8b70, 0xc76c51a3, 0xd192e819, 0xd6990624, 0xf40e3585, 0x106aa070,
    0x19a4c116, 0x1e376c08, 0x2748774c, 0x34b0bcb5, 0x391c0cb3, 0x4ed8aa4a, 0x5b9cca4f, 0x682e6ff3,
    0x748f82ee, 0x78a5636f, 0x84c87814, 0x8cc70208, 0x90befffa, 0xa4506ceb, 0xbef9a3f7, 0xc67178f2,
];

/// The digest of a message that is there as a whole.
pub fn digest(message: &[u8]) -> [u8; DIGEST_LEN] {
    let mut hash = Sha256::new();
    hash.update(message);
    hash.finish()
}

impl HashValue for Hash {
    const INITIAL: Self = [
        0x6a09e667, 0xbb67ae85, 0x3c6ef372, 0xa54ff53a, 0x510e527f, 0x9b05688c, 0x1f83d9ab,
        0x5be0cd19,
    ];

    fn compress(&mut self, block: &[u8; BLOCK_LEN]) {
        let mut state = *self;
        let words = schedule(block);
        let (words, _) = words.as_chunks::<TURN>();
        let (constants, _) = CONSTANTS.as_chunks::<TURN>();
        for (words, constants) in words.iter().zip(constants) {
            let sums: [u32; TURN] = std::array::from_fn(|t| constants[t].wrapping_add(words[t]));
            for sum in sums {
                state = step(state, sum);
            }
        }
        sha::add(self, state);
    }
}

/// The message schedule.
#[inline(always)]
fn schedule(block: &[u8; BLOCK_LEN]) -> [u32; STEPS] {
    let mut words = [0; STEPS];
    words[..BLOCK_WORDS].copy_from_slice(&sha::words(block));
    for t in BLOCK_WORDS..STEPS {
        words[t] = words[t - 16]
            .wrapping_add(small_sigma0(words[t - 15]))
            .wrapping_add(words[t - 7])
            .wrapping_add(small_sigma1(words[t - 2]));
    }
    words
}

/// One step, with the sum of its constant and its word.
#[inline(always)]
fn step([a, b, c, d, e, f, g, h]: Hash, sum: u32) -> Hash {
    let t1 = h
        .wrapping_add(big_sigma1(e))
        .wrapping_add(choice(e, f, g))
        .wrapping_add(sum);
    let t2 = big_sigma0(a).wrapping_add(majority(a, b, c));
    [t1.wrapping_add(t2), a, b, c, d.wrapping_add(t1), e, f, g]
}

// The functions of section 4.1.2 that take one word.

fn big_sigma0(x: u32) -> u32 {
    x.rotate_right(2) ^ x.rotate_right(13) ^ x.rotate_right(22)
}

fn big_sigma1(x: u32) -> u32 {
    x.rotate_right(6) ^ x.rotate_right(11) ^ x.rotate_right(25)
}

fn small_sigma0(x: u32) -> u32 {
    x.rotate_right(7) ^ x.rotate_right(18) ^ (x >> 3)
}

fn small_sigma1(x: u32) -> u32 {
    x.rotate_right(17) ^ x.rotate_right(19) ^ (x >> 10)
}

#[cfg(test)]
mod tests {
    use super::*;
    use crate::hex;

    /// The digests of "abc", of 56 bytes and of a million times "a".
    #[test]
    fn examples() {
        let long = vec![b'a'; 1_000_000];
        let two_blocks = b"abcdbcdecdefdefgefghfghighijhijkijkljklmklmnlmnomnopnopq";
        for (message, expected) in [
            (
                &b"abc"[..],
                "ba7816bf8f01cfea414140de5dae2223b00361a396177a9cb410ff61f20015ad",
            ),
            (
                two_blocks,
                "248d6a61d20638b8e5c026930c3e6039a33ce45964ff2167f6ecedd419db06c1",
            ),
            (
                &long,
                "cdc76e5c9914fb9281a1c7e284d73e67f1809a48a497200e046d39ccc7112cd0",
            ),
        ] {
            assert_eq!(hex::decode(expected), Some(digest(message).to_vec()));
        }
    }

    #[test]
    fn parts_are_one_message() {
        let message: [u8; 200] = std::array::from_fn(|i| i as u8);
        for first in 0..=message.len() {
            for second in first..=message.len() {
                let mut hash = Sha256::default();
                hash.update(&message[..first]);
                hash.update(&message[first..second]);
                hash.update(&message[second..]);
                assert_eq!(hash.finish(), digest(&message));
            }
        }
    }
}
