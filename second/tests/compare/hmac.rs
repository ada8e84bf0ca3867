//! HMAC-SHA-256.

use crate::common::primitives::{self, DONE};
use crate::common::{check, random::Random};
use crate::FILLINGS;
use second::hmac::MAC_LEN;
use second::sha256::BLOCK_LEN;

/// Keys of no byte, of less than a block, of a block and of more.
const KEY_LENS: [usize; 8] = [
    0,
    1,
    32,
    BLOCK_LEN - 1,
    BLOCK_LEN,
    BLOCK_LEN + 1,
    2 * BLOCK_LEN,
    200,
];

#[test]
fn all_short_lengths() {
    let mut random = Random::new(111);
    for key_len in 0..=200 {
        for len in 0..=300 {
            let [key, message] = [key_len, len].map(|len| random.bytes(len));
            let out = random.array::<MAC_LEN>();
            assert!(check::hmac_sha256(&key, &message, &out));
        }
    }
}

#[test]
fn long() {
    let mut random = Random::new(112);
    let edges = [1023, 1024, 1025, 4096, 65_535, 65_536, 65_537, 2_097_152];
    let others: Vec<_> = (0..30).map(|_| random.below(20_000)).collect();
    for len in edges.into_iter().chain(others) {
        let [short, long] = [random.below(200), len].map(|len| random.bytes(len));
        for (key, message) in [(&short, &long), (&long, &short)] {
            let out = random.array::<MAC_LEN>();
            assert!(check::hmac_sha256(key, message, &out));
        }
    }
}

/// Keys and messages with one bit that differs from all others.
#[test]
fn single_bits() {
    for filling in [0x00, 0xff] {
        for key_len in KEY_LENS {
            for bit in 0..8 * (key_len + BLOCK_LEN) {
                let mut bytes = vec![filling; key_len + BLOCK_LEN];
                bytes[bit / 8] ^= 1 << (bit % 8);
                let (key, message) = bytes.split_at(key_len);
                assert!(check::hmac_sha256(key, message, &[0xa5; MAC_LEN]));
            }
        }
    }
}

#[test]
fn constant_bytes() {
    for key in FILLINGS {
        for message in FILLINGS {
            for key_len in 0..=130 {
                for len in [0, 55, 56, 100] {
                    let (key, message) = (vec![key; key_len], vec![message; len]);
                    assert!(check::hmac_sha256(&key, &message, &[0xa5; 36]));
                }
            }
        }
    }
}

/// A key filled up to a block with zeros gives the same, and one of more than
/// a block gives the same as its digest.
#[test]
fn other_forms_of_a_key() {
    let mut random = Random::new(113);
    for len in 0..=200 {
        let [key, message] = [len, 50].map(|len| random.bytes(len));
        let mut other = key.clone();
        if len > BLOCK_LEN {
            other = vec![0xa5; MAC_LEN];
            assert_eq!(primitives::sha256(&key, &mut other), DONE);
        }
        other.resize(BLOCK_LEN, 0);
        let [of_key, of_other] = [key, other].map(|key| {
            let mut out = [0xa5; MAC_LEN];
            assert_eq!(primitives::hmac_sha256(&key, &message, &mut out), DONE);
            out
        });
        assert_eq!(of_key, of_other);
    }
}

#[test]
fn all_out_sizes() {
    let mut random = Random::new(114);
    for out_len in 0..=52 {
        for key_len in KEY_LENS {
            for len in [0, 1, 55, 56, 64, 100] {
                let [key, message, out] = [key_len, len, out_len].map(|len| random.bytes(len));
                let right = out_len >= MAC_LEN;
                assert_eq!(check::hmac_sha256(&key, &message, &out), right);
            }
        }
    }
}
