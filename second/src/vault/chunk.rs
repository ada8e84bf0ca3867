//! Chunks: up to 32 KiB of a file each.

use super::cipher::Cipher;
use super::header;
use super::lengths::CHUNK_LEN;
use super::sizes::{room, sized};
use super::{Refusal, Vault};
use crate::ctr_hmac;

/// The bytes of a chunk's number, which is big-endian.
const NUMBER_LEN: usize = 8;

/// The most associated data of a chunk: its number and the longer nonce.
const MAX_AD_LEN: usize = NUMBER_LEN + ctr_hmac::NONCE_LEN;

impl Vault {
    pub fn write_chunk(
        &self,
        content_key: &[u8],
        header_nonce: &[u8],
        number: u64,
        nonce: &[u8],
        cleartext: &[u8],
        out: &mut [u8],
    ) -> Result<usize, Refusal> {
        let cipher = self.chunk_cipher(content_key, header_nonce)?;
        self.check_nonce(nonce)?;
        Refusal::Length.unless((1..=CHUNK_LEN).contains(&cleartext.len()))?;
        let length = cleartext.len() + self.combo.overhead();
        room(out, length)?;
        cipher.seal(number, nonce, cleartext, &mut out[..length]);
        Ok(length)
    }

    pub fn open_chunk(
        &self,
        content_key: &[u8],
        header_nonce: &[u8],
        number: u64,
        chunk: &[u8],
        out: &mut [u8],
    ) -> Result<usize, Refusal> {
        let cipher = self.chunk_cipher(content_key, header_nonce)?;
        let length = chunk.len().saturating_sub(self.combo.overhead());
        Refusal::Length.unless((1..=CHUNK_LEN).contains(&length))?;
        room(out, length)?;
        cipher.verify(number, chunk)?;
        cipher.decrypt_part(chunk, 0, &mut out[..length]);
        Ok(length)
    }

    /// By a content key and a header nonce that are lent (row 1).
    fn chunk_cipher<'a>(
        &self,
        content_key: &[u8],
        header_nonce: &'a [u8],
    ) -> Result<ChunkCipher<'a>, Refusal> {
        let cipher = Cipher::new(&self.keys(sized(content_key)?));
        self.check_nonce(header_nonce)?;
        Ok(ChunkCipher::new(cipher, header_nonce))
    }

    /// By the header of a file (row 9).
    pub(super) fn chunk_cipher_of<'a>(&self, header: &'a [u8]) -> Result<ChunkCipher<'a>, Refusal> {
        let cipher = self.header_cipher();
        let payload = header::open(&cipher, header)?;
        let header_nonce = &header[..self.combo.nonce_len()];
        let cipher = cipher.with_key(&payload.content_key);
        Ok(ChunkCipher::new(cipher, header_nonce))
    }
}

/// What all chunks of a file have in common.
pub struct ChunkCipher<'a> {
    cipher: Cipher,
    header_nonce: &'a [u8],
}

impl<'a> ChunkCipher<'a> {
    /// By the cipher under the content key.
    pub fn new(cipher: Cipher, header_nonce: &'a [u8]) -> Self {
        ChunkCipher {
            cipher,
            header_nonce,
        }
    }

    /// Writes a chunk of exactly the length of `out`.
    pub fn seal(&self, number: u64, nonce: &[u8], cleartext: &[u8], out: &mut [u8]) {
        let ad = &mut [0; MAX_AD_LEN];
        self.cipher.seal(nonce, self.ad(number, ad), cleartext, out);
    }

    /// Replaces the cleartext of a chunk from a place on, and seals it all anew.
    pub fn reseal(&self, number: u64, nonce: &[u8], from: usize, new: &[u8], chunk: &mut [u8]) {
        let ad = &mut [0; MAX_AD_LEN];
        let ad = self.ad(number, ad);
        self.cipher.reseal(nonce, ad, from, new, chunk);
    }

    /// Row 10.
    pub fn verify(&self, number: u64, chunk: &[u8]) -> Result<(), Refusal> {
        let ad = &mut [0; MAX_AD_LEN];
        let genuine = self.cipher.verify(self.ad(number, ad), chunk);
        Refusal::Chunk(number).unless(genuine)
    }

    /// Fills `out` with the cleartext from a place on.
    pub fn decrypt_part(&self, chunk: &[u8], from: usize, out: &mut [u8]) {
        self.cipher.decrypt_part(chunk, from, out);
    }

    /// The associated data of a chunk: its number and the header nonce, in the
    /// order of the combo.
    fn ad<'b>(&self, number: u64, buffer: &'b mut [u8; MAX_AD_LEN]) -> &'b [u8] {
        let number = &number.to_be_bytes()[..];
        let (first, second) = match self.cipher {
            Cipher::Gcm(_) => (number, self.header_nonce),
            Cipher::CtrHmac(_) => (self.header_nonce, number),
        };
        let ad = &mut buffer[..first.len() + second.len()];
        let (start, rest) = ad.split_at_mut(first.len());
        start.copy_from_slice(first);
        rest.copy_from_slice(second);
        ad
    }
}

#[cfg(test)]
mod tests {
    use super::super::samples::vault;
    use super::super::Combo;
    use super::*;
    use crate::hex;

    const KEY: [u8; 32] = [0; 32];
    const NONCE: [u8; 16] = [0; 16];

    /// Values of the stock program's tests: the master keys are zeros as well.
    #[test]
    fn stock_program() {
        for (combo, expected) in Combo::ALL.into_iter().zip([
            "000000000000000000000000a6c22c5122401c017522a1ba\
             e8f02a12f71ea05222023e7bdfa5ea",
            "00000000000000000000000000000000b4f0ac14cd60fee6df24c6\
             2a58646bd58fbd7d4ba67e4461f5719725f52128115ed7519e2bcceebe85dce8",
        ]) {
            let vault = Vault::new(&KEY, &KEY, combo, 220).expect("two keys");
            let nonce = &NONCE[..combo.nonce_len()];
            let expected = hex::decode(expected).expect("digits");
            let mut out = vec![7; expected.len() + 2];
            let length = vault.write_chunk(&KEY, nonce, 0, nonce, b"hello world", &mut out);
            assert_eq!(length, Ok(expected.len()));
            assert_eq!(out, [&expected[..], &[7; 2]].concat());
            let mut out = [7; 13];
            let length = vault.open_chunk(&KEY, nonce, 0, &expected, &mut out);
            assert_eq!((length, &out), (Ok(11), b"hello world\x07\x07"));
        }
    }

    /// The number has 64 bits, and each of them counts.
    #[test]
    fn number() {
        for vault in Combo::ALL.map(vault) {
            let nonce = &NONCE[..vault.combo.nonce_len()];
            let mut chunk = vec![0; 5 + vault.combo.overhead()];
            let length = vault.write_chunk(&KEY, nonce, 0, nonce, b"hello", &mut chunk);
            assert_eq!(length, Ok(chunk.len()));
            for bit in 0..64 {
                let number = 1 << bit;
                let mut out = [7; 5];
                let length = vault.open_chunk(&KEY, nonce, number, &chunk, &mut out);
                assert_eq!((length, out), (Err(Refusal::Chunk(number)), [7; 5]));
            }
        }
    }

    /// Each row with all that are tried after it.
    #[test]
    fn rows() {
        for vault in Combo::ALL.map(vault) {
            let (nonce, overhead) = (vault.combo.nonce_len(), vault.combo.overhead());
            for (key, header_nonce, chunk, room, refusal) in [
                (31, nonce, overhead, 0, Refusal::KeyOrNonceSize),
                (32, nonce - 1, overhead, 0, Refusal::KeyOrNonceSize),
                (32, 28 - nonce, overhead, 0, Refusal::KeyOrNonceSize),
                (32, nonce, overhead, 0, Refusal::Length),
                (32, nonce, 0, 0, Refusal::Length),
                (32, nonce, CHUNK_LEN + overhead + 1, 0, Refusal::Length),
                (32, nonce, overhead + 1, 0, Refusal::Room),
                (32, nonce, overhead + 1, 1, Refusal::Chunk(9)),
            ] {
                let [key, header_nonce, chunk] = [key, header_nonce, chunk].map(|len| vec![3; len]);
                let mut out = vec![7; room];
                let opened = vault.open_chunk(&key, &header_nonce, 9, &chunk, &mut out);
                assert_eq!((opened, out), (Err(refusal), vec![7; room]));
            }
        }
    }
}
