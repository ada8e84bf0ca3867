//! AES-SIV (RFC 5297), with the keys for S2V and for counter mode apart.

use crate::aes::{Aes, Aes256, BLOCK_LEN, KEY_LEN};
use crate::cmac::{double, pad, Cmac};
use crate::ctr;

pub const IV_LEN: usize = BLOCK_LEN;

/// The most strings of associated data (section 2.6).
pub const MAX_AD: usize = 126;

/// The bits of the synthetic IV that counter mode does not take, so that a
/// counter of 32 or 64 bits would do.
const CLEARED: u128 = 1 << 63 | 1 << 31;

/// Gives the synthetic IV and then the ciphertext, by AES-256.
///
/// # Panics
/// If there are more strings of associated data than [`MAX_AD`].
pub fn seal(
    mac_key: &[u8; KEY_LEN],
    ctr_key: &[u8; KEY_LEN],
    ad: &[&[u8]],
    plaintext: &[u8],
) -> Vec<u8> {
    Siv::new(Aes256::new(mac_key), Aes256::new(ctr_key)).seal(ad, plaintext)
}

/// Gives the plaintext of what [`seal`] made, and `None` for anything else.
pub fn open(
    mac_key: &[u8; KEY_LEN],
    ctr_key: &[u8; KEY_LEN],
    ad: &[&[u8]],
    sealed: &[u8],
) -> Option<Vec<u8>> {
    Siv::new(Aes256::new(mac_key), Aes256::new(ctr_key)).open(ad, sealed)
}

/// Two keys made ready for many messages.
pub struct Siv<const ROUND_KEYS: usize> {
    mac: Cmac<ROUND_KEYS>,
    mac_of_zero: [u8; BLOCK_LEN],
    cipher: Aes<ROUND_KEYS>,
}

impl<const ROUND_KEYS: usize> Siv<ROUND_KEYS> {
    pub fn new(mac_cipher: Aes<ROUND_KEYS>, ctr_cipher: Aes<ROUND_KEYS>) -> Self {
        let mac = Cmac::new(mac_cipher);
        Siv {
            mac_of_zero: mac.mac(&[0; BLOCK_LEN]),
            mac,
            cipher: ctr_cipher,
        }
    }

    /// Gives the synthetic IV and then the ciphertext.
    ///
    /// # Panics
    /// If there are more strings of associated data than [`MAX_AD`].
    pub fn seal(&self, ad: &[&[u8]], plaintext: &[u8]) -> Vec<u8> {
        assert!(ad.len() <= MAX_AD, "too much associated data for SIV");
        let iv = self.s2v(ad, plaintext);
        let mut sealed = Vec::with_capacity(IV_LEN + plaintext.len());
        sealed.extend_from_slice(&iv.to_be_bytes());
        sealed.extend_from_slice(plaintext);
        ctr::apply(&self.cipher, iv & !CLEARED, &mut sealed[IV_LEN..]);
        sealed
    }

    /// Gives the plaintext of what [`Siv::seal`] made, and `None` for
    /// anything else.
    pub fn open(&self, ad: &[&[u8]], sealed: &[u8]) -> Option<Vec<u8>> {
        let (iv, ciphertext) = sealed.split_first_chunk()?;
        let iv = u128::from_be_bytes(*iv);
        let mut data = ciphertext.to_vec();
        ctr::apply(&self.cipher, iv & !CLEARED, &mut data);
        let genuine = ad.len() <= MAX_AD && self.s2v(ad, &data) == iv;
        genuine.then_some(data)
    }

    /// S2V (section 2.4) of all strings. The last one is the plaintext, so
    /// there is always one.
    fn s2v(&self, ad: &[&[u8]], plaintext: &[u8]) -> u128 {
        let mut sum = u128::from_be_bytes(self.mac_of_zero);
        for string in ad {
            sum = double(sum) ^ self.cmac(string);
        }
        if plaintext.len() < BLOCK_LEN {
            self.cmac(&(double(sum) ^ pad(plaintext)).to_be_bytes())
        } else {
            self.cmac_with_end(plaintext, sum)
        }
    }

    /// The MAC of a string of a block or more, with the sum added to its last
    /// 16 bytes. Only these are copied, and what precedes them in their block.
    fn cmac_with_end(&self, string: &[u8], sum: u128) -> u128 {
        let copied = BLOCK_LEN + string.len() % BLOCK_LEN;
        let (start, end) = string.split_at(string.len() - copied);
        let mut buffer = [0; 2 * BLOCK_LEN];
        let changed = &mut buffer[..copied];
        changed.copy_from_slice(end);
        for (byte, add) in changed.iter_mut().rev().zip(sum.to_le_bytes()) {
            *byte ^= add;
        }
        u128::from_be_bytes(self.mac.mac_after(start.as_chunks().0, changed))
    }

    fn cmac(&self, string: &[u8]) -> u128 {
        u128::from_be_bytes(self.mac.mac(string))
    }
}

#[cfg(test)]
mod tests {
    use super::*;

    const MAC_KEY: [u8; KEY_LEN] = [3; KEY_LEN];
    const CTR_KEY: [u8; KEY_LEN] = [5; KEY_LEN];

    fn sealed(ad: &[&[u8]]) -> Vec<u8> {
        seal(&MAC_KEY, &CTR_KEY, ad, b"plaintext")
    }

    fn opened(ad: &[&[u8]], sealed: &[u8]) -> Option<Vec<u8>> {
        open(&MAC_KEY, &CTR_KEY, ad, sealed)
    }

    /// None opens with the strings of another.
    #[test]
    fn different_lists_of_strings() {
        let lists: [&[&[u8]]; 7] = [
            &[],
            &[b""],
            &[b"", b""],
            &[b"ab"],
            &[b"a", b"b"],
            &[b"b", b"a"],
            &[b"ab", b""],
        ];
        for (i, ad) in lists.into_iter().enumerate() {
            for (j, other) in lists.into_iter().enumerate() {
                assert_eq!(opened(ad, &sealed(other)).is_some(), i == j);
            }
        }
    }

    #[test]
    fn sealed_shorter_than_an_iv() {
        let sealed = seal(&MAC_KEY, &CTR_KEY, &[], &[]);
        assert_eq!(opened(&[], &sealed), Some(vec![]));
        for len in 0..IV_LEN {
            assert_eq!(opened(&[], &sealed[..len]), None);
        }
    }

    #[test]
    fn most_associated_data() {
        let ad = [&b"ad"[..]; MAX_AD];
        let sealed = sealed(&ad);
        assert_eq!(opened(&ad, &sealed), Some(b"plaintext".to_vec()));
        assert_eq!(opened(&[&ad[..], &ad[..1]].concat(), &sealed), None);
    }

    #[test]
    #[should_panic(expected = "too much associated data")]
    fn too_much_associated_data() {
        sealed(&[&b"ad"[..]; MAX_AD + 1]);
    }
}
