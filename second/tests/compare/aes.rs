//! AES-256, encryption and decryption.

use crate::common::primitives::{self, DONE};
use crate::common::{check, random::Random};
use second::aes::{BLOCK_LEN, KEY_LEN};

/// A comparison by the key, the block and the buffer.
type Check = fn(&[u8], &[u8], &[u8]) -> bool;

const WAYS: [Check; 2] = [check::aes256, check::aes256_decrypt];

#[test]
fn random_blocks() {
    let mut random = Random::new(1);
    for _ in 0..200_000 {
        let [key, block] = [KEY_LEN, BLOCK_LEN].map(|len| random.bytes(len));
        let out = random.array::<BLOCK_LEN>();
        for check in WAYS {
            assert!(check(&key, &block, &out));
        }
    }
}

/// Keys and blocks with one bit that differs from all others.
#[test]
fn single_bits() {
    for filling in [0x00, 0xff] {
        for bit in 0..8 * (KEY_LEN + BLOCK_LEN) {
            let mut bytes = [filling; KEY_LEN + BLOCK_LEN];
            bytes[bit / 8] ^= 1 << (bit % 8);
            let (key, block) = bytes.split_at(KEY_LEN);
            for check in WAYS {
                assert!(check(key, block, &[0xa5; BLOCK_LEN]));
            }
        }
    }
}

/// Each way undoes the other.
#[test]
fn there_and_back() {
    let mut random = Random::new(3);
    for _ in 0..50_000 {
        let (key, block) = (random.array::<KEY_LEN>(), random.array::<BLOCK_LEN>());
        let (mut there, mut back) = ([0xa5; BLOCK_LEN], [0xa5; BLOCK_LEN]);
        assert_eq!(primitives::aes256(&key, &block, &mut there), DONE);
        assert_eq!(primitives::aes256_decrypt(&key, &there, &mut back), DONE);
        assert_eq!(back, block);

        assert_eq!(primitives::aes256_decrypt(&key, &block, &mut there), DONE);
        assert_eq!(primitives::aes256(&key, &there, &mut back), DONE);
        assert_eq!(back, block);
    }
}

#[test]
fn all_sizes() {
    let mut random = Random::new(2);
    for key_len in 0..=40 {
        for block_len in 0..=20 {
            for out_len in 0..=20 {
                let [key, block, out] = [key_len, block_len, out_len].map(|len| random.bytes(len));
                let right = key_len == KEY_LEN && block_len == BLOCK_LEN && out_len >= BLOCK_LEN;
                for check in WAYS {
                    assert_eq!(check(&key, &block, &out), right);
                }
            }
        }
    }
}
