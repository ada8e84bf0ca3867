//! Whole files, and ranges of them.

use super::chunk::ChunkCipher;
use super::lengths::CHUNK_LEN;
use super::nonces::all_differ;
use super::read::read;
use super::sizes::{room, sized};
use super::{header, Refusal, Vault};

impl Vault {
    /// The chunk nonces are one after the other.
    pub fn write_file(
        &self,
        header_nonce: &[u8],
        content_key: &[u8],
        chunk_nonces: &[u8],
        cleartext: &[u8],
        out: &mut [u8],
    ) -> Result<usize, Refusal> {
        self.check_nonce(header_nonce)?;
        let content_key = sized(content_key)?;
        let (chunks, nonce_len) = (cleartext.len().div_ceil(CHUNK_LEN), self.combo.nonce_len());
        Refusal::KeyOrNonceSize.unless(chunk_nonces.len() == chunks * nonce_len)?;
        let length = self.file_length(cleartext.len() as u64)? as usize;
        room(out, length)?;
        let nonces = chunk_nonces.chunks_exact(nonce_len);
        Refusal::RepeatedNonce.unless(all_differ(nonces.clone()))?;

        let (header, stored) = out[..length].split_at_mut(self.combo.header_len());
        let cipher = self.header_cipher();
        header::seal(&cipher, header_nonce, content_key, header);
        let cipher = ChunkCipher::new(cipher.with_key(content_key), header_nonce);
        let stored = stored.chunks_mut(self.combo.stored_chunk_len());
        let parts = cleartext.chunks(CHUNK_LEN).zip(nonces);
        for (number, (stored, (part, nonce))) in stored.zip(parts).enumerate() {
            cipher.seal(number as u64, nonce, part, stored);
        }
        Ok(length)
    }

    /// Opening is reading the range of everything.
    pub fn open_file(&self, file: &[u8], out: &mut [u8]) -> Result<usize, Refusal> {
        let length = self.cleartext_length(file.len() as u64)?;
        self.read_range(file, 0, length, out)
    }

    /// Writes `count` bytes of the cleartext, after its first `from` bytes.
    pub fn read_range(
        &self,
        file: &[u8],
        from: u64,
        count: u64,
        out: &mut [u8],
    ) -> Result<usize, Refusal> {
        read(self.combo, file, from, count, out, |header| {
            self.chunk_cipher_of(header)
        })
    }
}

#[cfg(test)]
mod tests {
    use super::super::cipher::Cipher;
    use super::super::samples::{cleartext, file, header_nonce, vault, CONTENT_KEY};
    use super::super::Combo;
    use super::*;

    #[test]
    fn written_files_open() {
        for vault in Combo::ALL.map(vault) {
            for len in [0, 1, 32_767, 32_768, 32_769, 65_536, 65_537] {
                let cleartext = cleartext(len);
                let mut out = vec![0; len];
                let opened = vault.open_file(&file(&vault, &cleartext), &mut out);
                assert_eq!(opened, Ok(len));
                assert!(out == cleartext);
            }
        }
    }

    #[test]
    fn ranges() {
        let cleartext = cleartext(65_540);
        for vault in Combo::ALL.map(vault) {
            let file = file(&vault, &cleartext);
            for from in [0, 1, 17, 32_767, 32_768, 65_535, 65_536, 65_540] {
                for count in [0, 1, 2, 15, 16, 17, 32_768, 32_770, 65_540 - from] {
                    let mut out = vec![0; count];
                    let read = vault.read_range(&file, from as u64, count as u64, &mut out);
                    match cleartext.get(from..from + count) {
                        Some(part) => assert!(read == Ok(count) && out == part),
                        None => assert_eq!(read, Err(Refusal::Range)),
                    }
                }
            }
        }
    }

    /// Which chunks a range reads shows by the numbers of damaged ones.
    #[test]
    fn covering_chunks() {
        for vault in Combo::ALL.map(vault) {
            let mut file = file(&vault, &cleartext(65_540));
            for number in 0..3 {
                let start = vault.combo.header_len() + number * vault.combo.stored_chunk_len();
                file[start] ^= 1;
            }
            for (from, count, first) in [
                (0, 32_768, 0),
                (32_767, 2, 0),
                (32_768, 1, 1),
                (65_536, 4, 2),
            ] {
                let read = vault.read_range(&file, from, count, &mut [0; 32_768]);
                assert_eq!(read, Err(Refusal::Chunk(first)));
            }
            let read = vault.read_range(&file, 65_540, 0, &mut []);
            assert_eq!(read, Ok(0));
        }
    }

    #[test]
    fn range_that_would_wrap() {
        for vault in Combo::ALL.map(vault) {
            let file = file(&vault, b"hello");
            for (from, count) in [(u64::MAX, 1), (1, u64::MAX), (u64::MAX, u64::MAX), (6, 0)] {
                let read = vault.read_range(&file, from, count, &mut []);
                assert_eq!(read, Err(Refusal::Range));
            }
        }
    }

    /// A nonce may come again only in a file from elsewhere, which opens.
    #[test]
    fn repeated_nonces() {
        let cleartext = cleartext(32_769);
        for vault in Combo::ALL.map(vault) {
            let mut file = file(&vault, &cleartext);
            let mut out = vec![7; file.len()];
            let nonce = header_nonce(&vault);
            let nonces = vec![9; 2 * nonce.len()];
            let written = vault.write_file(&nonce, &CONTENT_KEY, &nonces, &cleartext, &mut out);
            assert_eq!(written, Err(Refusal::RepeatedNonce));
            assert_eq!(out, vec![7; file.len()]);

            let cipher = ChunkCipher::new(Cipher::new(&vault.keys(&CONTENT_KEY)), &nonce);
            let chunks = &mut file[vault.combo.header_len()..];
            let (first, last) = chunks.split_at_mut(vault.combo.stored_chunk_len());
            cipher.seal(1, &first[..nonce.len()], &cleartext[CHUNK_LEN..], last);
            let opened = vault.open_file(&file, &mut out);
            assert_eq!(opened, Ok(cleartext.len()));
            assert!(out[..cleartext.len()] == cleartext);
        }
    }
}
