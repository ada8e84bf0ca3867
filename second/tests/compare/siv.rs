//! AES-256-SIV.

use crate::common::check::MAX_SIV_CLEARTEXT;
use crate::common::damage::Damage;
use crate::common::random::Random;
use crate::common::siv_message::Message;
use crate::{FILLINGS, NO, YES};
use second::aes::{BLOCK_LEN, KEY_LEN};
use second::siv::IV_LEN;
use std::mem;

/// Lengths of associated data, with `None` for not given.
fn ad_lens(longest: usize) -> impl Iterator<Item = Option<usize>> {
    [None].into_iter().chain((0..=longest).map(Some))
}

/// Compares sealing, opening, and opening after random one-bit flips.
fn check_all(random: &mut Random, ad_len: Option<usize>, cleartext_len: usize) {
    let message = Message::random(random, ad_len, cleartext_len);
    let right = cleartext_len <= MAX_SIV_CLEARTEXT;
    assert_eq!(message.seals(random), right);
    assert_eq!(message.opens(random), right);
    for damaged in message.random_flips(random) {
        assert!(!damaged.opens(random));
    }
}

#[test]
fn all_short_lengths() {
    let mut random = Random::new(51);
    for cleartext_len in 0..=300 {
        for ad_len in ad_lens(70) {
            check_all(&mut random, ad_len, cleartext_len);
        }
    }
}

/// Cleartexts around the longest that is accepted, and far beyond.
#[test]
fn longest_cleartext() {
    let mut random = Random::new(52);
    for cleartext_len in (1000..=1060).chain([2048, 5000, 70_000]) {
        for ad_len in ad_lens(20) {
            check_all(&mut random, ad_len, cleartext_len);
        }
    }
}

#[test]
fn long() {
    let mut random = Random::new(53);
    for ad_len in [127, 128, 255, 256, 1024, 1025, 4096, 70_000] {
        for _ in 0..10 {
            let cleartext_len = random.below(MAX_SIV_CLEARTEXT + 1);
            check_all(&mut random, Some(ad_len), cleartext_len);
        }
    }
}

#[test]
fn constant_bytes() {
    let mut random = Random::new(54);
    for mac_key in FILLINGS {
        for enc_key in FILLINGS {
            for ad in FILLINGS {
                for cleartext in FILLINGS {
                    let ad = vec![ad; random.below(40)];
                    let cleartext = vec![cleartext; random.below(100)];
                    let keys = [mac_key, enc_key].map(|filling| [filling; KEY_LEN]);
                    let message = Message::new(&keys[0], &keys[1], Some(&ad), &cleartext);
                    assert!(message.seals(&mut random));
                    assert!(message.opens(&mut random));
                }
            }
        }
    }
}

/// The last block is such that all bits of the synthetic IV are ones. The
/// first counter has two of them cleared, and the second a carry of 31 bits.
#[test]
fn counter_carry() {
    let mut random = Random::new(55);
    let mut cleartext = [0; 48];
    cleartext[32..].copy_from_slice(&0x3166580fe17a0f3eebe915e136684b4du128.to_be_bytes());
    let message = Message::new(&[0; KEY_LEN], &[0; KEY_LEN], None, &cleartext);
    assert_eq!(message.sealed[..IV_LEN], [0xff; IV_LEN]);
    assert!(message.seals(&mut random));
    assert!(message.opens(&mut random));
}

#[test]
fn all_one_bit_flips() {
    let mut random = Random::new(56);
    for cleartext_len in [0, 1, 15, 16, 17, 33, 70] {
        for ad_len in [None, Some(0), Some(1), Some(16), Some(20)] {
            let message = Message::random(&mut random, ad_len, cleartext_len);
            assert!(message.opens(&mut random));
            let mut flips = 0;
            for damaged in message.one_bit_flips() {
                assert!(!damaged.opens(&mut random));
                flips += 1;
            }
            let keys = if cleartext_len < BLOCK_LEN { 1 } else { 2 };
            let bytes = keys * KEY_LEN + ad_len.unwrap_or(0) + IV_LEN + cleartext_len;
            assert_eq!(flips, 8 * bytes);
        }
    }
}

#[test]
fn cut_and_extended() {
    let mut random = Random::new(57);
    for cleartext_len in [0, 1, 15, 16, 17, 31, 32, 33, 80, 1023, 1024] {
        for ad_len in [None, Some(0), Some(24)] {
            let message = Message::random(&mut random, ad_len, cleartext_len);
            let right = message.sealed.len();
            for sealed_len in 0..=right + 40 {
                let other = message.with_sealed_len(&mut random, sealed_len);
                assert_eq!(other.opens(&mut random), sealed_len == right);
            }
        }
    }
}

#[test]
fn swapped_keys() {
    let mut random = Random::new(58);
    for cleartext_len in 0..=100 {
        for ad_len in ad_lens(20) {
            let mut message = Message::random(&mut random, ad_len, cleartext_len);
            mem::swap(&mut message.mac_key, &mut message.enc_key);
            assert!(message.seals(&mut random));
            assert!(!message.opens(&mut random));
        }
    }
}

/// No associated data is not the same as an empty string of it.
#[test]
fn not_given_and_empty() {
    let mut random = Random::new(59);
    for cleartext_len in 0..=100 {
        for (ad_len, other_given) in [(None, YES[0]), (Some(0), NO)] {
            let mut message = Message::random(&mut random, ad_len, cleartext_len);
            message.ad.clear();
            assert!(message.opens(&mut random));
            message.ad_given = other_given;
            assert!(message.seals(&mut random));
            assert!(!message.opens(&mut random));
        }
    }
}

/// What is not given can have any bytes, and what is given by any number.
#[test]
fn ways_to_give() {
    let mut random = Random::new(60);
    for len in 0..=70 {
        let mut message = Message::random(&mut random, None, len);
        message.ad = random.bytes(len);
        assert!(message.seals(&mut random));
        assert!(message.opens(&mut random));
        let mut message = Message::random(&mut random, Some(len), len);
        for given in YES {
            message.ad_given = given;
            assert!(message.seals(&mut random));
            assert!(message.opens(&mut random));
        }
    }
}

/// An empty cleartext opens under any encryption key, and one byte under those
/// that give the same byte, which are about one in 256.
#[test]
fn another_encryption_key() {
    let mut random = Random::new(64);
    let mut opened = [0; BLOCK_LEN];
    for (cleartext_len, opened) in opened.iter_mut().enumerate() {
        for ad_len in ad_lens(20) {
            let mut message = Message::random(&mut random, ad_len, cleartext_len);
            for _ in 0..100 {
                message.enc_key = random.bytes(KEY_LEN);
                *opened += usize::from(message.opens(&mut random));
            }
            assert!(message.seals(&mut random));
        }
    }
    assert_eq!(opened[0], 22 * 100);
    assert!((1..50).contains(&opened[1]), "{opened:?}");
    assert_eq!(opened[4..], [0; BLOCK_LEN - 4]);
}

/// Longer keys start with the right one.
#[test]
fn all_key_sizes() {
    let mut random = Random::new(61);
    for mac_key_len in 0..=40 {
        for enc_key_len in 0..=40 {
            let mut message = Message::random(&mut random, Some(10), 20);
            message.mac_key.resize(mac_key_len, 0);
            message.enc_key.resize(enc_key_len, 0);
            let right = mac_key_len == KEY_LEN && enc_key_len == KEY_LEN;
            assert_eq!(message.seals(&mut random), right);
            assert_eq!(message.opens(&mut random), right);
        }
    }
}

#[test]
fn all_out_sizes() {
    let mut random = Random::new(62);
    for cleartext_len in (0..=40).chain([100]) {
        let message = Message::random(&mut random, Some(cleartext_len / 2), cleartext_len);
        let short = message.with_sealed_len(&mut random, cleartext_len % IV_LEN);
        for out_len in 0..=message.sealed.len() + 20 {
            let out = random.bytes(out_len);
            assert_eq!(message.seals_to(&out), out_len >= IV_LEN + cleartext_len);
            assert_eq!(message.opens_to(&out), out_len >= cleartext_len);
            assert!(!short.opens_to(&out));
            for damaged in message.random_flips(&mut random) {
                assert!(!damaged.opens_to(&out));
            }
        }
    }
}

/// Sizes of the buffer around what the longest cleartext takes.
#[test]
fn long_out_sizes() {
    let mut random = Random::new(63);
    for cleartext_len in [1023, 1024, 1025, 1040, 1041] {
        let fits = cleartext_len <= MAX_SIV_CLEARTEXT;
        let message = Message::random(&mut random, None, cleartext_len);
        for out_len in 1000..=1080 {
            let out = random.bytes(out_len);
            let seals = fits && out_len >= IV_LEN + cleartext_len;
            assert_eq!(message.seals_to(&out), seals);
            assert_eq!(message.opens_to(&out), fits && out_len >= cleartext_len);
        }
    }
}
