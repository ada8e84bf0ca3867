//! AES-256 in counter mode, then HMAC-SHA-256 of associated data, nonce and
//! ciphertext. The nonce is the first counter block.

use crate::aes::{Aes256, BLOCK_LEN, KEY_LEN};
use crate::ctr;
use crate::hmac::{self, Hmac};

pub const NONCE_LEN: usize = BLOCK_LEN;
pub const TAG_LEN: usize = hmac::MAC_LEN;

/// Two keys made ready for many messages.
pub struct CtrHmac {
    cipher: Aes256,
    mac_key: Hmac,
}

impl CtrHmac {
    pub fn new(key: &[u8; KEY_LEN], mac_key: &[u8; KEY_LEN]) -> Self {
        CtrHmac {
            cipher: Aes256::new(key),
            mac_key: Hmac::new(mac_key),
        }
    }

    /// Another key to encrypt under, with the MAC key that is ready.
    pub fn with_key(&self, key: &[u8; KEY_LEN]) -> Self {
        CtrHmac {
            cipher: Aes256::new(key),
            mac_key: self.mac_key.clone(),
        }
    }

    /// Encrypts in place and gives the tag.
    pub fn encrypt(&self, nonce: &[u8; NONCE_LEN], ad: &[u8], data: &mut [u8]) -> [u8; TAG_LEN] {
        self.apply_keystream(nonce, 0, data);
        self.tag(nonce, ad, data)
    }

    /// Whether the tag is right.
    #[must_use]
    pub fn verify(
        &self,
        nonce: &[u8; NONCE_LEN],
        ad: &[u8],
        ciphertext: &[u8],
        tag: &[u8; TAG_LEN],
    ) -> bool {
        equal(&self.tag(nonce, ad, ciphertext), tag)
    }

    /// Counter mode on what follows the first `offset` bytes of a message.
    /// Encrypts and decrypts.
    pub fn apply_keystream(&self, nonce: &[u8; NONCE_LEN], offset: usize, data: &mut [u8]) {
        ctr::apply_at(&self.cipher, u128::from_be_bytes(*nonce), offset, data);
    }

    fn tag(&self, nonce: &[u8; NONCE_LEN], ad: &[u8], ciphertext: &[u8]) -> [u8; TAG_LEN] {
        let mut mac = self.mac_key.clone();
        mac.update(ad);
        mac.update(nonce);
        mac.update(ciphertext);
        mac.finish()
    }
}

/// Looks at every byte: the time does not tell where they differ.
fn equal(a: &[u8; TAG_LEN], b: &[u8; TAG_LEN]) -> bool {
    let differences = a.iter().zip(b).fold(0, |bits, (a, b)| bits | (a ^ b));
    differences == 0
}

#[cfg(test)]
mod tests {
    use super::*;

    const KEY: [u8; KEY_LEN] = [1; KEY_LEN];
    const MAC_KEY: [u8; KEY_LEN] = [2; KEY_LEN];
    const NONCE: [u8; NONCE_LEN] = [0xff; NONCE_LEN];

    /// By the parts it is made of, over the end of the counter.
    #[test]
    fn parts() {
        let mut data = *b"a text of more than two blocks of AES";
        let mut expected = data;
        ctr::apply(&Aes256::new(&KEY), u128::MAX, &mut expected);
        let tag = CtrHmac::new(&KEY, &MAC_KEY).encrypt(&NONCE, b"ad", &mut data);
        assert_eq!(data, expected);
        let message = [&b"ad"[..], &NONCE, &data].concat();
        assert_eq!(tag, hmac::mac(&MAC_KEY, &message));
    }

    #[test]
    fn another_key() {
        let (mut one, mut other) = ([7; 40], [7; 40]);
        let tag = CtrHmac::new(&KEY, &MAC_KEY).encrypt(&NONCE, &[], &mut one);
        let rekeyed = CtrHmac::new(&[3; KEY_LEN], &MAC_KEY).with_key(&KEY);
        assert_eq!(rekeyed.encrypt(&NONCE, &[], &mut other), tag);
        assert_eq!(one, other);
    }

    /// Each bit of what the tag covers, and of the tag.
    #[test]
    fn every_bit() {
        let cipher = CtrHmac::new(&KEY, &MAC_KEY);
        let mut data = *b"data";
        let tag = cipher.encrypt(&NONCE, b"ad", &mut data);
        let message = [&NONCE[..], b"ad", &data, &tag].concat();
        let genuine = |message: &[u8]| {
            let (nonce, rest) = message.split_first_chunk().expect("a nonce");
            let (ad, rest) = rest.split_at(2);
            let (data, tag) = rest.split_last_chunk().expect("a tag");
            cipher.verify(nonce, ad, data, tag)
        };
        assert!(genuine(&message));
        for bit in 0..8 * message.len() {
            let mut damaged = message.clone();
            damaged[bit / 8] ^= 1 << (bit % 8);
            assert!(!genuine(&damaged));
        }
    }
}
