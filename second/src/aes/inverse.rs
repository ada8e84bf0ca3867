//! AES decryption, by the equivalent inverse cipher (FIPS 197, section 5.3.5):
//! its rounds have the form of the cipher's, with round keys of their own.

use super::tables::{INV_S_BOX, INV_T, S_BOX};
use super::{add, to_bytes, to_state, Aes, State, BLOCK_LEN};

/// An expanded key to decrypt by. The round keys are in the order of their use.
pub struct InverseAes<const ROUND_KEYS: usize> {
    round_keys: [State; ROUND_KEYS],
}

impl<const ROUND_KEYS: usize> Aes<ROUND_KEYS> {
    /// Decrypts one block. For more of them, [`InverseAes`] is made once.
    pub fn decrypt(&self, block: &[u8; BLOCK_LEN]) -> [u8; BLOCK_LEN] {
        InverseAes::new(self).decrypt(block)
    }
}

impl<const ROUND_KEYS: usize> InverseAes<ROUND_KEYS> {
    /// InvMixColumns changes all round keys but the first and the last.
    pub fn new(cipher: &Aes<ROUND_KEYS>) -> Self {
        let mut round_keys = cipher.round_keys;
        round_keys.reverse();
        for word in round_keys[1..ROUND_KEYS - 1].as_flattened_mut() {
            *word = inv_mix_column(*word);
        }
        InverseAes { round_keys }
    }

    pub fn decrypt(&self, block: &[u8; BLOCK_LEN]) -> [u8; BLOCK_LEN] {
        let [first, middle @ .., last] = &self.round_keys[..] else {
            unreachable!("there are 11 or 15 round keys");
        };
        let mut state = add(to_state(block), first);
        for round_key in middle {
            state = add(inv_round(state), round_key);
        }
        to_bytes(add(inv_last_round(state), last))
    }
}

/// The table undoes SubBytes first, so SubBytes comes before it.
fn inv_mix_column(word: u32) -> u32 {
    let substituted = |byte| usize::from(S_BOX[usize::from(byte)]);
    inv_column(word.to_be_bytes().map(substituted))
}

/// InvSubBytes, InvShiftRows and InvMixColumns.
#[inline(always)]
fn inv_round(state: State) -> State {
    std::array::from_fn(|i| inv_column(inv_shifted_column(&state, i)))
}

/// InvSubBytes and InvShiftRows.
#[inline(always)]
fn inv_last_round(state: State) -> State {
    std::array::from_fn(|i| {
        u32::from_be_bytes(inv_shifted_column(&state, i).map(|byte| INV_S_BOX[byte]))
    })
}

/// InvSubBytes and InvMixColumns of one column.
#[inline(always)]
fn inv_column([a, b, c, d]: [usize; 4]) -> u32 {
    INV_T[0][a] ^ INV_T[1][b] ^ INV_T[2][c] ^ INV_T[3][d]
}

/// The bytes that InvShiftRows brings to column `i`, as indices.
#[inline(always)]
fn inv_shifted_column(state: &State, i: usize) -> [usize; 4] {
    std::array::from_fn(|row| usize::from(state[(i + 4 - row) % 4].to_be_bytes()[row]))
}

#[cfg(test)]
mod tests {
    use super::*;
    use crate::aes::{Aes128, Aes256};

    fn counted<const N: usize>() -> [u8; N] {
        std::array::from_fn(|i| i as u8)
    }

    /// FIPS 197, appendices C.1 and C.3.
    #[test]
    fn inverse_cipher_examples() {
        let block = std::array::from_fn(|i| 0x11 * i as u8);
        let encrypted = 0x69c4e0d86a7b0430d8cdb78070b4c55au128.to_be_bytes();
        assert_eq!(Aes128::new(&counted()).decrypt(&encrypted), block);
        let encrypted = 0x8ea2b7ca516745bfeafc49904b496089u128.to_be_bytes();
        assert_eq!(Aes256::new(&counted()).decrypt(&encrypted), block);
    }

    /// The first two round keys of the equivalent inverse cipher in C.1.
    #[test]
    fn round_keys() {
        let inverse = InverseAes::new(&Aes128::new(&counted()));
        let first = [0x13111d7f, 0xe3944a17, 0xf307a78b, 0x4d2b30c5];
        let second = [0x13aa29be, 0x9c8faff6, 0xf770f580, 0x00f7bf03];
        assert_eq!(inverse.round_keys[..2], [first, second]);
    }

    #[test]
    fn undoes_encryption() {
        for i in 0..256 {
            let block = std::array::from_fn(|j| (7 * i + 13 * j) as u8);
            let key = std::array::from_fn(|j| (i + 29 * j) as u8);
            there_and_back(&Aes128::new(&key), block);
            let key = std::array::from_fn(|j| (i + 29 * j) as u8);
            there_and_back(&Aes256::new(&key), block);
        }
    }

    fn there_and_back<const ROUND_KEYS: usize>(cipher: &Aes<ROUND_KEYS>, block: [u8; BLOCK_LEN]) {
        assert_eq!(cipher.decrypt(&cipher.encrypt(&block)), block);
        assert_eq!(cipher.encrypt(&cipher.decrypt(&block)), block);
    }
}
