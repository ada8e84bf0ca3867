//! Nonces.

use crate::common::random::Random;
use crate::format::sizes;
use second::vault::Combo;

/// A nonce of the combo's size. From some of SIV_CTRMAC the counter soon wraps,
/// or carries out of some of its bytes.
pub fn nonce(random: &mut Random, combo: Combo) -> Vec<u8> {
    if combo == Combo::SivGcm || random.below(3) > 0 {
        return random.bytes(sizes(combo).nonce);
    }
    let bytes = 1 + random.below(16);
    let counters = [random.below(4), random.below(2100)][random.below(2)];
    before_carry(random, bytes, counters)
}

/// Nonces that differ, one after the other.
pub fn nonces(random: &mut Random, combo: Combo, count: usize) -> Vec<u8> {
    let len = sizes(combo).nonce;
    let mut nonces = random.bytes(count * len);
    if count > 0 {
        let start = random.below(count) * len;
        nonces[start..start + len].copy_from_slice(&nonce(random, combo));
    }
    nonces
}

/// A nonce of SIV_CTRMAC: after so many counters these last bytes of it are all
/// zero. From all 16 of them the counter wraps.
pub fn before_carry(random: &mut Random, bytes: usize, counters: usize) -> Vec<u8> {
    let mut nonce = random.array::<16>();
    let last = 0u128.wrapping_sub(counters as u128).to_be_bytes();
    nonce[16 - bytes..].copy_from_slice(&last[16 - bytes..]);
    nonce.to_vec()
}
