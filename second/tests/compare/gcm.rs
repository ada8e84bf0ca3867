//! AES-256-GCM.

use crate::common::damage::Damage;
use crate::common::gcm_message::Message;
use crate::common::random::Random;
use crate::FILLINGS;
use second::aes::{BLOCK_LEN, KEY_LEN};
use second::gcm::{NONCE_LEN, TAG_LEN};

#[test]
fn all_short_lengths() {
    let mut random = Random::new(3);
    for cleartext_len in 0..=300 {
        for aad_len in (0..=70).chain([127, 128, 255, 256, 1000]) {
            let message = Message::random(&mut random, aad_len, cleartext_len);
            assert!(message.seals(&mut random));
            assert!(message.opens(&mut random));
            for damaged in message.random_flips(&mut random) {
                assert!(!damaged.opens(&mut random));
            }
        }
    }
}

#[test]
fn long() {
    let mut random = Random::new(4);
    let edges = [1023, 1024, 1025, 4096, 32_767, 32_768, 32_769, 40_000];
    let others: Vec<_> = (0..20).map(|_| random.below(40_000)).collect();
    for cleartext_len in edges.into_iter().chain(others) {
        for aad_len in [0, 24, random.below(40_000)] {
            let message = Message::random(&mut random, aad_len, cleartext_len);
            assert!(message.seals(&mut random));
            assert!(message.opens(&mut random));
            for damaged in message.random_flips(&mut random) {
                assert!(!damaged.opens(&mut random));
            }
            for sealed_len in [random.below(cleartext_len), message.sealed.len() + 1] {
                let damaged = message.with_sealed_len(&mut random, sealed_len);
                assert!(!damaged.opens(&mut random));
            }
        }
    }
}

/// More blocks than 16 bits of the counter can number.
#[test]
fn counter_carry() {
    let mut random = Random::new(5);
    let message = Message::random(&mut random, 24, (BLOCK_LEN << 16) + 100);
    assert!(message.seals(&mut random));
    assert!(message.opens(&mut random));
}

#[test]
fn constant_bytes() {
    let mut random = Random::new(6);
    for key in FILLINGS {
        for nonce in FILLINGS {
            for aad in FILLINGS {
                for cleartext in FILLINGS {
                    let aad = vec![aad; random.below(40)];
                    let cleartext = vec![cleartext; random.below(100)];
                    let message = Message::new(&[key; 32], &[nonce; 12], &aad, &cleartext);
                    assert!(message.seals(&mut random));
                    assert!(message.opens(&mut random));
                }
            }
        }
    }
}

#[test]
fn all_one_bit_flips() {
    let mut random = Random::new(7);
    for (aad_len, cleartext_len) in [(0, 0), (0, 1), (5, 16), (16, 15), (20, 33), (35, 70)] {
        let message = Message::random(&mut random, aad_len, cleartext_len);
        assert!(message.opens(&mut random));
        let mut flips = 0;
        for damaged in message.one_bit_flips() {
            assert!(!damaged.opens(&mut random));
            flips += 1;
        }
        let bytes = KEY_LEN + NONCE_LEN + aad_len + cleartext_len + TAG_LEN;
        assert_eq!(flips, 8 * bytes);
    }
}

#[test]
fn cut_and_extended() {
    let mut random = Random::new(8);
    for cleartext_len in [0, 1, 15, 16, 17, 31, 32, 33, 80] {
        for aad_len in [0, 7, 16, 24] {
            let message = Message::random(&mut random, aad_len, cleartext_len);
            let right = message.sealed.len();
            for sealed_len in 0..=right + 40 {
                let other = message.with_sealed_len(&mut random, sealed_len);
                assert_eq!(other.opens(&mut random), sealed_len == right);
            }
        }
    }
}

/// Longer keys and nonces start with the right one.
#[test]
fn all_key_and_nonce_sizes() {
    let mut random = Random::new(9);
    for key_len in 0..=40 {
        for nonce_len in 0..=20 {
            let mut message = Message::random(&mut random, 10, 20);
            message.key.resize(key_len, 0);
            message.nonce.resize(nonce_len, 0);
            let right = key_len == KEY_LEN && nonce_len == NONCE_LEN;
            assert_eq!(message.seals(&mut random), right);
            assert_eq!(message.opens(&mut random), right);
        }
    }
}

#[test]
fn all_out_sizes() {
    let mut random = Random::new(10);
    for cleartext_len in (0..=40).chain([100]) {
        let message = Message::random(&mut random, cleartext_len / 2, cleartext_len);
        let short = message.with_sealed_len(&mut random, cleartext_len % TAG_LEN);
        for out_len in 0..=message.sealed.len() + 20 {
            let out = random.bytes(out_len);
            assert_eq!(message.seals_to(&out), out_len >= cleartext_len + TAG_LEN);
            assert_eq!(message.opens_to(&out), out_len >= cleartext_len);
            assert!(!short.opens_to(&out));
            for damaged in message.random_flips(&mut random) {
                assert!(!damaged.opens_to(&out));
            }
        }
    }
}
