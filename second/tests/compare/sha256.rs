//! SHA-256.

use crate::common::check;
use crate::common::random::Random;
use crate::FILLINGS;
use second::sha256::DIGEST_LEN;

#[test]
fn all_short_lengths() {
    let mut random = Random::new(101);
    for len in 0..=300 {
        for _ in 0..50 {
            let message = random.bytes(len);
            assert!(check::sha256(&message, &random.array::<DIGEST_LEN>()));
        }
    }
}

/// Up to a length in bits of more than three bytes.
#[test]
fn long() {
    let mut random = Random::new(102);
    let edges = [
        8191, 8192, 8193, 65_535, 65_536, 65_537, 2_097_152, 3_000_000,
    ];
    let others: Vec<_> = (0..100).map(|_| random.below(20_000)).collect();
    for len in edges.into_iter().chain(others) {
        let message = random.bytes(len);
        assert!(check::sha256(&message, &random.array::<DIGEST_LEN>()));
    }
}

/// Messages with one bit that differs from all others.
#[test]
fn single_bits() {
    for filling in [0x00, 0xff] {
        for len in [32, 55, 56, 64, 100] {
            for bit in 0..8 * len {
                let mut message = vec![filling; len];
                message[bit / 8] ^= 1 << (bit % 8);
                assert!(check::sha256(&message, &[0xa5; DIGEST_LEN]));
            }
        }
    }
}

#[test]
fn constant_bytes() {
    for filling in FILLINGS {
        for len in 0..=300 {
            assert!(check::sha256(&vec![filling; len], &[0xa5; 36]));
        }
    }
}

#[test]
fn all_out_sizes() {
    let mut random = Random::new(103);
    for out_len in 0..=52 {
        for len in 0..=130 {
            let [message, out] = [len, out_len].map(|len| random.bytes(len));
            assert_eq!(check::sha256(&message, &out), out_len >= DIGEST_LEN);
        }
    }
}
