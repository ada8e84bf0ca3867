//! AES-256 in counter mode: with a counter of 128 bits from slice to slice,
//! and with one of 32 or of 128 bits in place.

use crate::common::primitives::{self, DONE, REFUSED};
use crate::common::{check, random::Random};
use crate::{FILLINGS, NO, YES};
use second::aes::{BLOCK_LEN, KEY_LEN};

/// Compares with a random key and an `out` that is long enough.
fn done(random: &mut Random, counter: u128, len: usize) -> bool {
    let spare = random.below(20);
    let [key, text, out] = [KEY_LEN, len, len + spare].map(|len| random.bytes(len));
    check::ctr128(&key, &counter.to_be_bytes(), &text, &out)
}

fn random_counter(random: &mut Random) -> u128 {
    u128::from_be_bytes(random.array())
}

#[test]
fn all_short_lengths() {
    let mut random = Random::new(121);
    for len in 0..=300 {
        for _ in 0..50 {
            let counter = random_counter(&mut random);
            assert!(done(&mut random, counter, len));
        }
    }
}

#[test]
fn long() {
    let mut random = Random::new(122);
    let edges = [1023, 1024, 1025, 4096, 65_535, 65_536, 65_537, 100_000];
    let others: Vec<_> = (0..30).map(|_| random.below(20_000)).collect();
    for len in edges.into_iter().chain(others) {
        let counter = random_counter(&mut random);
        assert!(done(&mut random, counter, len));
    }
}

/// More blocks than 16 bits of the counter can number, over its end.
#[test]
fn long_over_the_end() {
    let mut random = Random::new(123);
    let len = (BLOCK_LEN << 16) + 100;
    assert!(done(&mut random, u128::MAX - 10_000, len));
}

/// The low bytes of the counter, from one to all 16, go from all ones to zero
/// within the text or just after it.
#[test]
fn carries() {
    const BLOCKS: usize = 12;
    let mut random = Random::new(124);
    for bytes in 1..=BLOCK_LEN {
        let ones = u128::MAX >> (128 - 8 * bytes);
        for before in 0..=BLOCKS {
            for _ in 0..20 {
                let counter = (random_counter(&mut random) | ones) - before as u128;
                for len in [BLOCKS * BLOCK_LEN, random.below(BLOCKS * BLOCK_LEN)] {
                    assert!(done(&mut random, counter, len));
                }
            }
        }
    }
}

/// Counters of zero and of one bit, and those some blocks before them.
#[test]
fn counters_near_single_bits() {
    let mut random = Random::new(125);
    let bits = (0..128).map(|bit| 1 << bit);
    for counter in bits.chain([0u128]) {
        for before in 0..=9 {
            let first = counter.wrapping_sub(before);
            assert!(done(&mut random, first, 10 * BLOCK_LEN));
        }
    }
}

/// A text of zeros gives the cipher of each counter.
#[test]
fn blocks_are_the_cipher_of_counters() {
    const BLOCKS: usize = 10;
    let mut random = Random::new(126);
    let far = random_counter(&mut random);
    for middle in [0, 1 << 32, 1 << 64, far] {
        let first = middle.wrapping_sub(BLOCKS as u128 / 2);
        let key = random.array::<KEY_LEN>();
        let mut stream = [0xa5; BLOCKS * BLOCK_LEN];
        let text = [0; BLOCKS * BLOCK_LEN];
        let status = primitives::ctr128(&key, &first.to_be_bytes(), &text, &mut stream);
        assert_eq!(status, DONE);
        for (i, block) in stream.chunks(BLOCK_LEN).enumerate() {
            let counter = first.wrapping_add(i as u128).to_be_bytes();
            let mut alone = [0xa5; BLOCK_LEN];
            assert_eq!(primitives::aes256(&key, &counter, &mut alone), DONE);
            assert_eq!(block, alone);
        }
    }
}

/// Keys, counters and texts with one bit that differs from all others.
#[test]
fn single_bits() {
    for filling in [0x00, 0xff] {
        for len in [15, 16, 17, 40, 80] {
            let all = KEY_LEN + BLOCK_LEN + len;
            for bit in 0..8 * all {
                let mut bytes = vec![filling; all];
                bytes[bit / 8] ^= 1 << (bit % 8);
                let (key, rest) = bytes.split_at(KEY_LEN);
                let (counter, text) = rest.split_at(BLOCK_LEN);
                assert!(check::ctr128(key, counter, text, &vec![0xa5; len]));
            }
        }
    }
}

#[test]
fn constant_bytes() {
    for key in FILLINGS {
        for counter in FILLINGS {
            for text in FILLINGS {
                for len in 0..=100 {
                    let (key, counter) = ([key; KEY_LEN], [counter; BLOCK_LEN]);
                    let text = vec![text; len];
                    assert!(check::ctr128(&key, &counter, &text, &[0xa5; 104]));
                }
            }
        }
    }
}

#[test]
fn all_key_and_counter_sizes() {
    let mut random = Random::new(127);
    for key_len in 0..=40 {
        for counter_len in 0..=20 {
            for len in [0, 1, 15, 16, 17, 33] {
                let [key, counter] = [key_len, counter_len].map(|len| random.bytes(len));
                let [text, out] = [len, len + 3].map(|len| random.bytes(len));
                let right = key_len == KEY_LEN && counter_len == BLOCK_LEN;
                assert_eq!(check::ctr128(&key, &counter, &text, &out), right);
            }
        }
    }
}

#[test]
fn all_out_sizes() {
    let mut random = Random::new(128);
    for len in (0..=100).chain([255, 256, 257]) {
        for out_len in 0..=len + 20 {
            let [key, counter] = [KEY_LEN, BLOCK_LEN].map(|len| random.bytes(len));
            let [text, out] = [len, out_len].map(|len| random.bytes(len));
            assert_eq!(check::ctr128(&key, &counter, &text, &out), out_len >= len);
        }
    }
}

/// Bytes around a text that no call may change. The number is odd, so that
/// the text is at an odd address.
const GUARD: [u8; 17] = *b"outside of a text";

/// The call in place on a text between guards: its status, and the text after.
fn call_in_place(key: &[u8], counter: &[u8], wide: u32, text: &[u8]) -> (u32, Vec<u8>) {
    let mut all = [&GUARD, text, &GUARD].concat();
    let range = GUARD.len()..GUARD.len() + text.len();
    let status = primitives::ctr_in_place(key, counter, wide, &mut all[range.clone()]);
    let after = all[range].to_vec();
    assert_eq!(all, [&GUARD, after.as_slice(), &GUARD].concat());
    (status, after)
}

/// The counter of block i: the whole of it counts, or its last 32 bits.
fn counter_of(first: u128, wide: u32, i: usize) -> u128 {
    let next = first.wrapping_add(i as u128);
    let low = u128::from(u32::MAX);
    if wide == NO {
        first & !low | next & low
    } else {
        next
    }
}

/// Compares with calls from slice to slice, one for each block.
fn compare_in_place(random: &mut Random, first: u128, wide: u32, len: usize) {
    let key = random.array::<KEY_LEN>();
    let text = random.bytes(len);
    let mut expected = vec![0xa5; len];
    let blocks = text.chunks(BLOCK_LEN).zip(expected.chunks_mut(BLOCK_LEN));
    for (i, (text, out)) in blocks.enumerate() {
        let counter = counter_of(first, wide, i).to_be_bytes();
        assert_eq!(primitives::ctr128(&key, &counter, text, out), DONE);
    }
    let first = first.to_be_bytes();
    assert_eq!(call_in_place(&key, &first, wide, &text), (DONE, expected));
}

#[test]
fn in_place_all_short_lengths() {
    let mut random = Random::new(129);
    for len in 0..=300 {
        for wide in YES.into_iter().chain([NO]) {
            for _ in 0..5 {
                let first = random_counter(&mut random);
                compare_in_place(&mut random, first, wide, len);
            }
        }
    }
}

#[test]
fn in_place_long() {
    let mut random = Random::new(130);
    for len in [4095, 4096, 4097, 32_768, 65_536, 100_000] {
        for wide in [NO, YES[0]] {
            let first = random_counter(&mut random);
            compare_in_place(&mut random, first, wide, len);
        }
    }
}

/// As in `carries`. A counter of 32 bits leaves the bytes before them alone.
#[test]
fn in_place_carries() {
    const BLOCKS: usize = 12;
    let mut random = Random::new(131);
    for bytes in 1..=BLOCK_LEN {
        let ones = u128::MAX >> (128 - 8 * bytes);
        for before in 0..=BLOCKS {
            for wide in [NO, YES[0]] {
                for _ in 0..10 {
                    let first = (random_counter(&mut random) | ones) - before as u128;
                    for len in [BLOCKS * BLOCK_LEN, random.below(BLOCKS * BLOCK_LEN)] {
                        compare_in_place(&mut random, first, wide, len);
                    }
                }
            }
        }
    }
}

/// A call with a key or a counter of another size leaves the text alone.
#[test]
fn in_place_all_key_and_counter_sizes() {
    let mut random = Random::new(132);
    for key_len in 0..=40 {
        for counter_len in 0..=20 {
            for (wide, len) in [(NO, 0), (YES[0], 0), (NO, 33), (YES[0], 33)] {
                let [key, counter, text] = [key_len, counter_len, len].map(|len| random.bytes(len));
                let (status, after) = call_in_place(&key, &counter, wide, &text);
                let right = key_len == KEY_LEN && counter_len == BLOCK_LEN;
                assert_eq!(status, if right { DONE } else { REFUSED });
                assert!(right || after == text);
            }
        }
    }
}
