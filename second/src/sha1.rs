//! SHA-1 (FIPS 180-4, section 6.1).

use crate::sha::{self, choice, majority, HashValue, Running, BLOCK_LEN, BLOCK_WORDS};

pub const DIGEST_LEN: usize = 20;

/// The state after a part of a message.
pub type Sha1 = Running<Hash, DIGEST_LEN>;

type Hash = [u32; 5];

/// The digest of a message that is there as a whole.
pub fn digest(message: &[u8]) -> [u8; DIGEST_LEN] {
    let mut hash = Sha1::new();
    hash.update(message);
    hash.finish()
}

impl HashValue for Hash {
    const INITIAL: Self = [0x67452301, 0xefcdab89, 0x98badcfe, 0x10325476, 0xc3d2e1f0];

    fn compress(&mut self, block: &[u8; BLOCK_LEN]) {
        let [first, second, third, fourth] = schedule(block);
        let mut state = *self;
        state = steps(state, &first, 0x5a827999, choice);
        state = steps(state, &second, 0x6ed9eba1, parity);
        state = steps(state, &third, 0x8f1bbcdc, majority);
        state = steps(state, &fourth, 0xca62c1d6, parity);
        sha::add(self, state);
    }
}

/// The message schedule, in four parts that are used in different ways.
#[inline(always)]
fn schedule(block: &[u8; BLOCK_LEN]) -> [[u32; 20]; 4] {
    let mut parts = [[0; 20]; 4];
    let words = parts.as_flattened_mut();
    words[..BLOCK_WORDS].copy_from_slice(&sha::words(block));
    for t in BLOCK_WORDS..words.len() {
        let sum = words[t - 3] ^ words[t - 8] ^ words[t - 14] ^ words[t - 16];
        words[t] = sum.rotate_left(1);
    }
    parts
}

/// One step for each word.
#[inline(always)]
fn steps(
    mut state: Hash,
    words: &[u32; 20],
    constant: u32,
    function: impl Fn(u32, u32, u32) -> u32,
) -> Hash {
    for word in words {
        let [a, b, c, d, e] = state;
        let sum = e
            .wrapping_add(constant)
            .wrapping_add(*word)
            .wrapping_add(function(b, c, d))
            .wrapping_add(a.rotate_left(5));
        state = [sum, a, b.rotate_left(30), c, d];
    }
    state
}

fn parity(x: u32, y: u32, z: u32) -> u32 {
    x ^ y ^ z
}

#[cfg(test)]
mod tests {
    use super::*;
    use crate::hex;

    /// The digests of "abc", of 56 bytes and of a million times "a".
    #[test]
    fn examples() {
        let long = vec![b'a'; 1_000_000];
        let two_blocks = b"abcdbcdecdefdefgefghfghighijhijkijkljklmklmnlmnomnopnopq";
        for (message, expected) in [
            (&b"abc"[..], "a9993e364706816aba3e25717850c26c9cd0d89d"),
            (two_blocks, "84983e441c3bd26ebaae4aa1f95129e5e54670f1"),
            (&long, "34aa973cd4c4daa4f61eeb2bdbad27316534016f"),
        ] {
            assert_eq!(hex::decode(expected), Some(digest(message).to_vec()));
        }
    }

    #[test]
    fn parts_are_one_message() {
        let message: [u8; 200] = std::array::from_fn(|i| i as u8);
        for first in 0..=message.len() {
            for second in first..=message.len() {
                let mut hash = Sha1::default();
                hash.update(&message[..first]);
                hash.update(&message[first..second]);
                hash.update(&message[second..]);
                assert_eq!(hash.finish(), digest(&message));
            }
        }
    }
}
