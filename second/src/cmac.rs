//! CMAC (SP 800-38B) with AES and a MAC of 128 bits.
//!
//! A block is read as a big-endian integer.

use crate::aes::{Aes, Aes256, BLOCK_LEN, KEY_LEN};

pub const MAC_LEN: usize = BLOCK_LEN;

/// The MAC of a message by AES-256.
pub fn mac(key: &[u8; KEY_LEN], message: &[u8]) -> [u8; MAC_LEN] {
    Cmac::new(Aes256::new(key)).mac(message)
}

/// A key made ready for many messages.
pub struct Cmac<const ROUND_KEYS: usize> {
    cipher: Aes<ROUND_KEYS>,
    whole_key: u128,
    padded_key: u128,
}

impl<const ROUND_KEYS: usize> Cmac<ROUND_KEYS> {
    pub fn new(cipher: Aes<ROUND_KEYS>) -> Self {
        let zero = u128::from_be_bytes(cipher.encrypt(&[0; BLOCK_LEN]));
        let whole_key = double(zero);
        let padded_key = double(whole_key);
        Cmac {
            cipher,
            whole_key,
            padded_key,
        }
    }

    pub fn mac(&self, message: &[u8]) -> [u8; MAC_LEN] {
        self.mac_after(&[], message)
    }

    /// The MAC of the blocks and then the end. The end is not empty, unless
    /// there are no blocks: the last block of a message is a case of its own.
    pub(crate) fn mac_after(&self, blocks: &[[u8; BLOCK_LEN]], end: &[u8]) -> [u8; MAC_LEN] {
        debug_assert!(blocks.is_empty() || !end.is_empty());
        let last_start = end.len().saturating_sub(1) / BLOCK_LEN * BLOCK_LEN;
        let (middle, last) = end.split_at(last_start);
        let state = self.chain(0, blocks);
        let state = self.chain(state, middle.as_chunks().0);
        let masked = match last.try_into() {
            Ok(block) => u128::from_be_bytes(block) ^ self.whole_key,
            Err(_) => pad(last) ^ self.padded_key,
        };
        self.cipher.encrypt(&(state ^ masked).to_be_bytes())
    }

    fn chain(&self, mut state: u128, blocks: &[[u8; BLOCK_LEN]]) -> u128 {
        for block in blocks {
            let input = state ^ u128::from_be_bytes(*block);
            state = u128::from_be_bytes(self.cipher.encrypt(&input.to_be_bytes()));
        }
        state
    }
}

/// Multiplies by x modulo x^128 + x^7 + x^2 + x + 1, the top bit of the block
/// being the coefficient of x^127.
pub(crate) fn double(block: u128) -> u128 {
    (block << 1) ^ ((block >> 127) * 0x87)
}

/// Fills up less than a block with a one bit and then zeros.
pub(crate) fn pad(part: &[u8]) -> u128 {
    let mut block = [0; BLOCK_LEN];
    block[..part.len()].copy_from_slice(part);
    block[part.len()] = 0x80;
    u128::from_be_bytes(block)
}

#[cfg(test)]
mod tests {
    use super::*;

    /// SP 800-38B, appendix D.1: the subkeys of AES-128.
    #[test]
    fn subkeys() {
        let zero = 0x7df76b0c1ab899b33e42f047b91b546f;
        assert_eq!(double(zero), 0xfbeed618357133667c85e08f7236a8de);
        assert_eq!(double(double(zero)), 0xf7ddac306ae266ccf90bc11ee46d513b);
    }

    #[test]
    fn padding() {
        assert_eq!(pad(&[]), 1 << 127);
        assert_eq!(pad(&[0xab]), 0xab80 << 112);
        assert_eq!(pad(&[0xff; 15]), u128::MAX << 8 | 0x80);
    }

    #[test]
    fn blocks_apart_are_one_message() {
        let key = std::array::from_fn(|i| 3 * i as u8);
        let cmac = Cmac::new(Aes256::new(&key));
        let message: [u8; 50] = std::array::from_fn(|i| i as u8);
        for len in 0..=message.len() {
            let message = &message[..len];
            assert_eq!(mac(&key, message), cmac.mac(message));
            for blocks in 0..len.div_ceil(BLOCK_LEN) {
                let (start, end) = message.split_at(blocks * BLOCK_LEN);
                let split = cmac.mac_after(start.as_chunks().0, end);
                assert_eq!(split, cmac.mac(message));
            }
        }
    }
}
