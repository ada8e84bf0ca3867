//! AES-256-CMAC.

use crate::common::check;
use crate::common::random::Random;
use crate::FILLINGS;
use second::aes::KEY_LEN;
use second::cmac::MAC_LEN;

#[test]
fn all_short_lengths() {
    let mut random = Random::new(21);
    for len in 0..=300 {
        for _ in 0..50 {
            let [key, message] = [KEY_LEN, len].map(|len| random.bytes(len));
            assert!(check::cmac256(&key, &message, &random.array::<MAC_LEN>()));
        }
    }
}

#[test]
fn long() {
    let mut random = Random::new(22);
    let edges = [1023, 1024, 1025, 4096, 65_535, 65_536, 65_537, 100_000];
    let others: Vec<_> = (0..30).map(|_| random.below(20_000)).collect();
    for len in edges.into_iter().chain(others) {
        let [key, message] = [KEY_LEN, len].map(|len| random.bytes(len));
        assert!(check::cmac256(&key, &message, &random.array::<MAC_LEN>()));
    }
}

/// Keys and messages with one bit that differs from all others.
#[test]
fn single_bits() {
    for filling in [0x00, 0xff] {
        for len in [15, 16, 17, 32, 40] {
            for bit in 0..8 * (KEY_LEN + len) {
                let mut bytes = vec![filling; KEY_LEN + len];
                bytes[bit / 8] ^= 1 << (bit % 8);
                let (key, message) = bytes.split_at(KEY_LEN);
                assert!(check::cmac256(key, message, &[0xa5; MAC_LEN]));
            }
        }
    }
}

#[test]
fn constant_bytes() {
    for key in FILLINGS {
        for message in FILLINGS {
            for len in 0..=100 {
                let message = vec![message; len];
                assert!(check::cmac256(&[key; KEY_LEN], &message, &[0xa5; 20]));
            }
        }
    }
}

#[test]
fn all_sizes() {
    let mut random = Random::new(23);
    for key_len in 0..=40 {
        for out_len in 0..=24 {
            for len in [0, 1, 15, 16, 17, 33] {
                let [key, message, out] = [key_len, len, out_len].map(|len| random.bytes(len));
                let right = key_len == KEY_LEN && out_len >= MAC_LEN;
                assert_eq!(check::cmac256(&key, &message, &out), right);
            }
        }
    }
}
