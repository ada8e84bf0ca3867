//! What the combos do to headers and chunks: each is stored as a nonce, the
//! ciphertext and a tag.

use super::keys::Keys;
use crate::aes::KEY_LEN;
use crate::ctr_hmac::{self, CtrHmac};
use crate::gcm::{self, Aes256Gcm};

/// A key made ready for many headers or chunks.
pub enum Cipher {
    Gcm(Aes256Gcm),
    CtrHmac(CtrHmac),
}

impl Cipher {
    pub fn new(keys: &Keys) -> Self {
        match keys {
            Keys::SivGcm { key } => Cipher::Gcm(Aes256Gcm::new(key)),
            Keys::SivCtrmac { key, mac } => Cipher::CtrHmac(CtrHmac::new(key, mac)),
        }
    }

    /// The same vault's with another key.
    pub fn with_key(&self, key: &[u8; KEY_LEN]) -> Self {
        match self {
            Cipher::Gcm(_) => Cipher::Gcm(Aes256Gcm::new(key)),
            Cipher::CtrHmac(cipher) => Cipher::CtrHmac(cipher.with_key(key)),
        }
    }

    /// Writes the stored form, which has exactly the length of `out`.
    pub fn seal(&self, nonce: &[u8], ad: &[u8], cleartext: &[u8], out: &mut [u8]) {
        let (start, rest) = out.split_at_mut(nonce.len());
        let (data, tag) = rest.split_at_mut(cleartext.len());
        start.copy_from_slice(nonce);
        data.copy_from_slice(cleartext);
        self.encrypt(nonce, ad, data, tag);
    }

    /// Replaces the cleartext from a place on, and seals it all anew with this
    /// nonce. Does not look at the tag.
    pub fn reseal(&self, nonce: &[u8], ad: &[u8], from: usize, new: &[u8], stored: &mut [u8]) {
        let (start, rest) = stored.split_at_mut(nonce.len());
        let (data, tag) = rest.split_at_mut(rest.len() - self.tag_len());
        let (before, rest) = data.split_at_mut(from);
        let (replaced, after) = rest.split_at_mut(new.len());
        self.apply_keystream(start, 0, before);
        self.apply_keystream(start, from + new.len(), after);
        replaced.copy_from_slice(new);
        start.copy_from_slice(nonce);
        self.encrypt(nonce, ad, data, tag);
    }

    /// Whether the tag is right.
    #[must_use]
    pub fn verify(&self, ad: &[u8], stored: &[u8]) -> bool {
        match self {
            Cipher::Gcm(cipher) => {
                let (nonce, ciphertext, tag) = parts(stored);
                cipher.verify(nonce, ad, ciphertext, tag)
            }
            Cipher::CtrHmac(cipher) => {
                let (nonce, ciphertext, tag) = parts(stored);
                cipher.verify(nonce, ad, ciphertext, tag)
            }
        }
    }

    /// Fills `out` with the cleartext from a place on.
    pub fn decrypt_part(&self, stored: &[u8], from: usize, out: &mut [u8]) {
        let (nonce, sealed) = stored.split_at(self.nonce_len());
        out.copy_from_slice(&sealed[from..from + out.len()]);
        self.apply_keystream(nonce, from, out);
    }

    /// Encrypts in place and writes the tag.
    fn encrypt(&self, nonce: &[u8], ad: &[u8], data: &mut [u8], tag: &mut [u8]) {
        match self {
            Cipher::Gcm(cipher) => tag.copy_from_slice(&cipher.encrypt(array(nonce), ad, data)),
            Cipher::CtrHmac(cipher) => tag.copy_from_slice(&cipher.encrypt(array(nonce), ad, data)),
        }
    }

    /// Counter mode on what follows the first `offset` bytes. Encrypts and
    /// decrypts.
    fn apply_keystream(&self, nonce: &[u8], offset: usize, data: &mut [u8]) {
        match self {
            Cipher::Gcm(cipher) => cipher.apply_keystream(array(nonce), offset, data),
            Cipher::CtrHmac(cipher) => cipher.apply_keystream(array(nonce), offset, data),
        }
    }

    fn nonce_len(&self) -> usize {
        match self {
            Cipher::Gcm(_) => gcm::NONCE_LEN,
            Cipher::CtrHmac(_) => ctr_hmac::NONCE_LEN,
        }
    }

    fn tag_len(&self) -> usize {
        match self {
            Cipher::Gcm(_) => gcm::TAG_LEN,
            Cipher::CtrHmac(_) => ctr_hmac::TAG_LEN,
        }
    }
}

/// A nonce of the size that the combo has.
fn array<const N: usize>(nonce: &[u8]) -> &[u8; N] {
    nonce.try_into().expect("row 1 was tried")
}

/// The nonce, ciphertext and tag of a stored form, which is longer than nonce
/// and tag.
fn parts<const N: usize, const T: usize>(stored: &[u8]) -> (&[u8; N], &[u8], &[u8; T]) {
    let (nonce, sealed) = stored.split_first_chunk().expect("a nonce");
    let (ciphertext, tag) = sealed.split_last_chunk().expect("a tag");
    (nonce, ciphertext, tag)
}
