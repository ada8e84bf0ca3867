//! AES-256-GCM (SP 800-38D) with a 96-bit nonce and a 128-bit tag.

use crate::aes::{Aes256, BLOCK_LEN, KEY_LEN};
use crate::ctr;
use crate::ghash::GhashKey;

pub const NONCE_LEN: usize = 12;
pub const TAG_LEN: usize = 16;

/// The longest plaintext: as many blocks as the 32-bit counter can number.
pub const MAX_LEN: u64 = (1 << 36) - 32;

/// Gives the ciphertext and then the tag.
///
/// # Panics
/// If the plaintext is longer than [`MAX_LEN`].
pub fn seal(key: &[u8; KEY_LEN], nonce: &[u8; NONCE_LEN], aad: &[u8], plaintext: &[u8]) -> Vec<u8> {
    let mut sealed = Vec::with_capacity(plaintext.len() + TAG_LEN);
    sealed.extend_from_slice(plaintext);
    let tag = Aes256Gcm::new(key).encrypt(nonce, aad, &mut sealed);
    sealed.extend_from_slice(&tag);
    sealed
}

/// Gives the plaintext of what [`seal`] made, and `None` for anything else.
pub fn open(
    key: &[u8; KEY_LEN],
    nonce: &[u8; NONCE_LEN],
    aad: &[u8],
    sealed: &[u8],
) -> Option<Vec<u8>> {
    let (ciphertext, tag) = sealed.split_last_chunk()?;
    let mut data = ciphertext.to_vec();
    let genuine = Aes256Gcm::new(key).decrypt(nonce, aad, &mut data, tag);
    genuine.then_some(data)
}

/// A key made ready for many messages.
pub struct Aes256Gcm {
    cipher: Aes256,
    hash_key: GhashKey,
}

impl Aes256Gcm {
    pub fn new(key: &[u8; KEY_LEN]) -> Self {
        let cipher = Aes256::new(key);
        let hash_key = GhashKey::new(&cipher.encrypt(&[0; BLOCK_LEN]));
        Aes256Gcm { cipher, hash_key }
    }

    /// Encrypts in place and gives the tag.
    ///
    /// # Panics
    /// If the data is longer than [`MAX_LEN`].
    pub fn encrypt(&self, nonce: &[u8; NONCE_LEN], aad: &[u8], data: &mut [u8]) -> [u8; TAG_LEN] {
        assert!(data.len() as u64 <= MAX_LEN, "plaintext too long for GCM");
        self.apply_keystream(nonce, 0, data);
        self.tag(nonce, aad, data)
    }

    /// Decrypts in place if the tag is right, and otherwise changes nothing
    /// and gives `false`.
    #[must_use]
    pub fn decrypt(
        &self,
        nonce: &[u8; NONCE_LEN],
        aad: &[u8],
        data: &mut [u8],
        tag: &[u8; TAG_LEN],
    ) -> bool {
        let genuine = self.verify(nonce, aad, data, tag);
        if genuine {
            self.apply_keystream(nonce, 0, data);
        }
        genuine
    }

    /// Whether the tag is right.
    #[must_use]
    pub fn verify(
        &self,
        nonce: &[u8; NONCE_LEN],
        aad: &[u8],
        ciphertext: &[u8],
        tag: &[u8; TAG_LEN],
    ) -> bool {
        ciphertext.len() as u64 <= MAX_LEN && equal(&self.tag(nonce, aad, ciphertext), tag)
    }

    /// Counter mode, from counter 2, on what follows the first `offset` bytes
    /// of a message. Encrypts and decrypts.
    pub fn apply_keystream(&self, nonce: &[u8; NONCE_LEN], offset: usize, data: &mut [u8]) {
        ctr::apply_at(&self.cipher, first_counter(nonce) + 1, offset, data);
    }

    /// The tag of a ciphertext: its hash, encrypted with counter 1.
    fn tag(&self, nonce: &[u8; NONCE_LEN], aad: &[u8], ciphertext: &[u8]) -> [u8; TAG_LEN] {
        let mut tag = self.hash_key.hash(aad, ciphertext);
        ctr::apply(&self.cipher, first_counter(nonce), &mut tag);
        tag
    }
}

/// The nonce and then a 32-bit counter of 1. No message within [`MAX_LEN`]
/// has so many blocks that the counter reaches the nonce.
fn first_counter(nonce: &[u8; NONCE_LEN]) -> u128 {
    let mut block = [0; BLOCK_LEN];
    block[..NONCE_LEN].copy_from_slice(nonce);
    u128::from_be_bytes(block) + 1
}

/// Compares as whole integers: the time does not tell where they differ.
fn equal(a: &[u8; TAG_LEN], b: &[u8; TAG_LEN]) -> bool {
    u128::from_ne_bytes(*a) == u128::from_ne_bytes(*b)
}

#[cfg(test)]
mod tests {
    use super::*;

    const KEY: [u8; KEY_LEN] = [0; KEY_LEN];
    const NONCE: [u8; NONCE_LEN] = [0; NONCE_LEN];
    const CIPHERTEXT: u128 = 0xcea7403d4d606b6e074ec5d3baf39d18;
    const TAG: u128 = 0xd0d1c8a799996bf0265b98b5d48ab919;

    /// Test case 14 of the GCM specification.
    #[test]
    fn encrypt_and_decrypt_in_place() {
        let gcm = Aes256Gcm::new(&KEY);
        let mut data = [0; 16];
        let tag = gcm.encrypt(&NONCE, &[], &mut data);
        assert_eq!(data, CIPHERTEXT.to_be_bytes());
        assert_eq!(tag, TAG.to_be_bytes());
        assert!(gcm.decrypt(&NONCE, &[], &mut data, &tag));
        assert_eq!(data, [0; 16]);
    }

    #[test]
    fn refusal_changes_nothing() {
        let gcm = Aes256Gcm::new(&KEY);
        let mut data = CIPHERTEXT.to_be_bytes();
        for bit in 0..128 {
            let tag = (TAG ^ 1 << bit).to_be_bytes();
            assert!(!gcm.decrypt(&NONCE, &[], &mut data, &tag));
            assert_eq!(data, CIPHERTEXT.to_be_bytes());
        }
    }

    #[test]
    fn sealed_shorter_than_a_tag() {
        let sealed = seal(&KEY, &NONCE, &[], &[]);
        assert_eq!(open(&KEY, &NONCE, &[], &sealed), Some(vec![]));
        for len in 0..TAG_LEN {
            assert_eq!(open(&KEY, &NONCE, &[], &sealed[..len]), None);
        }
    }
}
