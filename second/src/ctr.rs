//! Counter mode (SP 800-38A, section 6.5) with a big-endian 128-bit counter.

use crate::aes::{Aes, BLOCK_LEN};

/// Blocks of key stream made at a time.
const GROUP: usize = 4;

/// Encrypts or decrypts in place: the first block with the counter given, and
/// each further one with the next counter.
pub fn apply<const ROUND_KEYS: usize>(
    cipher: &Aes<ROUND_KEYS>,
    mut counter: u128,
    data: &mut [u8],
) {
    let (groups, rest) = data.as_chunks_mut::<{ GROUP * BLOCK_LEN }>();
    for group in groups {
        let blocks = keystream::<GROUP, ROUND_KEYS>(cipher, counter);
        xor(group, blocks.as_flattened());
        counter = counter.wrapping_add(GROUP as u128);
    }
    for block in rest.chunks_mut(BLOCK_LEN) {
        let blocks = keystream::<1, ROUND_KEYS>(cipher, counter);
        xor(block, blocks.as_flattened());
        counter = counter.wrapping_add(1);
    }
}

/// Like [`apply`] on a longer text, of which `data` is what follows the first
/// `offset` bytes.
pub fn apply_at<const ROUND_KEYS: usize>(
    cipher: &Aes<ROUND_KEYS>,
    counter: u128,
    offset: usize,
    data: &mut [u8],
) {
    let mut counter = counter.wrapping_add((offset / BLOCK_LEN) as u128);
    let before = offset % BLOCK_LEN;
    let mut rest = data;
    if before > 0 {
        let first_len = rest.len().min(BLOCK_LEN - before);
        let (first, later) = rest.split_at_mut(first_len);
        let [block] = keystream::<1, ROUND_KEYS>(cipher, counter);
        xor(first, &block[before..]);
        counter = counter.wrapping_add(1);
        rest = later;
    }
    apply(cipher, counter, rest);
}

/// Key stream blocks, with consecutive counters.
fn keystream<const N: usize, const ROUND_KEYS: usize>(
    cipher: &Aes<ROUND_KEYS>,
    counter: u128,
) -> [[u8; BLOCK_LEN]; N] {
    let mut blocks = std::array::from_fn(|i| counter.wrapping_add(i as u128).to_be_bytes());
    cipher.encrypt_blocks(&mut blocks);
    blocks
}

/// Adds the key stream, of which the end may be left over.
fn xor(data: &mut [u8], stream: &[u8]) {
    for (byte, key) in data.iter_mut().zip(stream) {
        *byte ^= key;
    }
}

#[cfg(test)]
mod tests {
    use super::*;
    use crate::aes::{Aes128, Aes256};

    /// SP 800-38A, section F.5.1, first and last block.
    #[test]
    fn example() {
        let key = 0x2b7e151628aed2a6abf7158809cf4f3cu128.to_be_bytes();
        let mut data = [0; 4 * BLOCK_LEN];
        data[..16].copy_from_slice(&0x6bc1bee22e409f96e93d7e117393172au128.to_be_bytes());
        data[48..].copy_from_slice(&0xf69f2445df4f9b17ad2b417be66c3710u128.to_be_bytes());
        let counter = 0xf0f1f2f3f4f5f6f7f8f9fafbfcfdfeff;
        apply(&Aes128::new(&key), counter, &mut data);
        let (first, last) = (&data[..16], &data[48..]);
        assert_eq!(first, 0x874d6191b620e3261bef6864990db6ceu128.to_be_bytes());
        assert_eq!(last, 0x1e031dda2fbe03d1792170a0f3009ceeu128.to_be_bytes());
    }

    /// Each block by itself, over the end of the counter.
    #[test]
    fn groups_are_blocks_alone() {
        let cipher = Aes256::new(&[7; 32]);
        let counter = u128::MAX - 5;
        for len in 0..200 {
            let mut data = vec![0; len];
            apply(&cipher, counter, &mut data);
            for (i, block) in data.chunks(BLOCK_LEN).enumerate() {
                let input = counter.wrapping_add(i as u128).to_be_bytes();
                assert_eq!(block, &cipher.encrypt(&input)[..block.len()]);
            }
        }
    }

    #[test]
    fn parts_are_parts_of_the_whole() {
        let cipher = Aes256::new(&[7; 32]);
        let counter = u128::MAX - 5;
        let mut whole = [0; 150];
        apply(&cipher, counter, &mut whole);
        for start in 0..=whole.len() {
            for end in start..=whole.len() {
                let mut part = vec![0; end - start];
                apply_at(&cipher, counter, start, &mut part);
                assert_eq!(part, whole[start..end]);
            }
        }
    }
}
