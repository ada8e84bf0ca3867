//! Mending: a range of a file's cleartext is replaced, in place.

use super::nonces::are_fresh;
use super::range::{covered, covering, inside};
use super::{Refusal, Vault};

impl Vault {
    /// Replaces bytes of the cleartext, after its first `from` bytes, by as many
    /// new ones. Each chunk that has some of them is sealed anew with the next of
    /// the nonces, which are one after the other. Gives how many bytes are new.
    pub fn mend(
        &self,
        file: &mut [u8],
        from: u64,
        new: &[u8],
        nonces: &[u8],
    ) -> Result<usize, Refusal> {
        let (count, nonce_len) = (new.len() as u64, self.combo.nonce_len());
        let nonces_len = covered(from, count) * nonce_len as u128;
        Refusal::KeyOrNonceSize.unless(nonces.len() as u128 == nonces_len)?;
        let length = self.cleartext_length(file.len() as u64)?;
        let range = inside(from, count, length)?;

        let (header, chunks) = file.split_at_mut(self.combo.header_len());
        let stored_chunk_len = self.combo.stored_chunk_len();
        let (old, nonces) = (chunks.chunks(stored_chunk_len), nonces.chunks(nonce_len));
        let old_nonces = old.clone().map(|chunk| &chunk[..nonce_len]);
        Refusal::RepeatedNonce.unless(are_fresh(nonces.clone(), old_nonces))?;
        let cipher = self.chunk_cipher_of(header)?;
        for (number, chunk, _) in covering(self.combo, old, range.clone()) {
            cipher.verify(number, chunk)?;
        }

        let covering = covering(self.combo, chunks.chunks_mut(stored_chunk_len), range);
        let mut rest = new;
        for ((number, chunk, part), nonce) in covering.zip(nonces) {
            let (new, later) = rest.split_at(part.len());
            cipher.reseal(number, nonce, part.start, new, chunk);
            rest = later;
        }
        Ok(new.len())
    }
}

#[cfg(test)]
mod tests {
    use super::super::samples::{chunk_nonces, cleartext, file, header_nonce, vault, CONTENT_KEY};
    use super::super::{Combo, CHUNK_LEN};
    use super::*;

    /// Three chunks, the last of four bytes.
    const LEN: usize = 2 * CHUNK_LEN + 4;

    /// As many nonces as the range needs. No file of the samples has one of them.
    fn new_nonces(vault: &Vault, from: u64, count: usize) -> Vec<u8> {
        let chunks = 0..covered(from, count as u64);
        let nonces = chunks.map(|i| vec![0x80 + i as u8; vault.combo.nonce_len()]);
        nonces.collect::<Vec<_>>().concat()
    }

    /// The file of a cleartext, written with these nonces.
    fn written(vault: &Vault, cleartext: &[u8], nonces: &[u8]) -> Vec<u8> {
        let mut out = file(vault, cleartext);
        let nonce = header_nonce(vault);
        let written = vault.write_file(&nonce, &CONTENT_KEY, nonces, cleartext, &mut out);
        assert_eq!(written, Ok(out.len()));
        out
    }

    /// Damages the chunk with this number.
    fn damage(vault: &Vault, file: &mut [u8], number: usize) {
        file[vault.combo.header_len() + number * vault.combo.stored_chunk_len() + 20] ^= 1;
    }

    /// What is mended is what is written with the new bytes and the new nonces.
    #[test]
    fn as_if_written() {
        let edges = [
            0,
            1,
            32_767,
            32_768,
            32_769,
            65_535,
            65_536,
            65_537,
            LEN - 1,
            LEN,
        ];
        for vault in Combo::ALL.map(vault) {
            let old = cleartext(LEN);
            for (i, &from) in edges.iter().enumerate() {
                for &end in &edges[i..] {
                    let new = vec![0xa5; end - from];
                    let nonces = new_nonces(&vault, from as u64, new.len());
                    let mut mended = file(&vault, &old);
                    let length = vault.mend(&mut mended, from as u64, &new, &nonces);
                    assert_eq!(length, Ok(new.len()));

                    let mut cleartext = old.clone();
                    cleartext[from..end].fill(0xa5);
                    let mut all_nonces = chunk_nonces(&vault, &cleartext);
                    let first = from / CHUNK_LEN * vault.combo.nonce_len();
                    all_nonces.splice(first..first + nonces.len(), nonces);
                    assert!(mended == written(&vault, &cleartext, &all_nonces));
                }
            }
        }
    }

    /// A damaged chunk counts only where it has a part of the range: then none is
    /// changed. Elsewhere it stays as it is.
    #[test]
    fn damaged_chunks() {
        for vault in Combo::ALL.map(vault) {
            let whole = file(&vault, &cleartext(LEN));
            for (damaged, from, count, refused) in [
                (&[0][..], 32_768, 40, None),
                (&[0, 2], 32_768, 32_768, None),
                (&[2], 32_767, 2, None),
                (&[1], 32_767, 2, Some(1)),
                (&[2, 1], 0, LEN, Some(1)),
                (&[2], 0, LEN, Some(2)),
                (&[0, 1, 2], 65_536, 0, None),
            ] {
                let mut old = whole.clone();
                damaged.iter().for_each(|&i| damage(&vault, &mut old, i));
                let mut mended = old.clone();
                let nonces = new_nonces(&vault, from, count);
                let length = vault.mend(&mut mended, from, &vec![9; count], &nonces);
                match refused {
                    None => assert_eq!(length, Ok(count)),
                    Some(number) => assert_eq!(length, Err(Refusal::Chunk(number))),
                }
                let start = vault.combo.header_len();
                let pairs = old[start..].chunks(vault.combo.stored_chunk_len());
                let pairs = pairs.zip(mended[start..].chunks(vault.combo.stored_chunk_len()));
                for (number, (old, mended)) in pairs.enumerate() {
                    let first = from as usize / CHUNK_LEN;
                    let covered = number >= first && number * CHUNK_LEN < from as usize + count;
                    assert_eq!(old != mended, covered && refused.is_none());
                }
                assert_eq!(old[..start], mended[..start]);
            }
        }
    }

    /// Equal to each other, or to that of any chunk: not to that of the header.
    #[test]
    fn repeated_nonces() {
        for vault in Combo::ALL.map(vault) {
            let old = file(&vault, &cleartext(LEN));
            let old_nonces = chunk_nonces(&vault, &cleartext(LEN));
            let len = vault.combo.nonce_len();
            let header_nonce = header_nonce(&vault);
            let others = old_nonces.chunks(len).chain([&[0x80; 16][..len]]);
            for nonce in others {
                let nonces = [&[0x80; 16][..len], nonce].concat();
                let mut mended = old.clone();
                let length = vault.mend(&mut mended, 32_767, b"ab", &nonces);
                assert_eq!(length, Err(Refusal::RepeatedNonce));
                assert!(mended == old);
            }
            let nonces = [&[0x80; 16][..len], &header_nonce].concat();
            let length = vault.mend(&mut old.clone(), 32_767, b"ab", &nonces);
            assert_eq!(length, Ok(2));
        }
    }

    /// Each row with all that are tried after it.
    #[test]
    fn rows() {
        for vault in Combo::ALL.map(vault) {
            let mut damaged = file(&vault, &cleartext(100));
            damage(&vault, &mut damaged, 0);
            let (bad_chunk, nonce) = (damaged.clone(), vault.combo.nonce_len());
            damaged[0] ^= 1;
            let short = &damaged[..vault.combo.header_len() - 1];
            for (file, from, nonces, refusal) in [
                (short, 101, vec![], Refusal::KeyOrNonceSize),
                (short, 101, vec![0; nonce - 1], Refusal::KeyOrNonceSize),
                (short, 101, vec![0; 2 * nonce], Refusal::KeyOrNonceSize),
                (short, u64::MAX, vec![0; nonce], Refusal::Length),
                (&damaged, 100, vec![0; nonce], Refusal::Range),
                (&damaged, u64::MAX, vec![0; nonce], Refusal::Range),
                (&damaged, 99, vec![0; nonce], Refusal::RepeatedNonce),
                (&damaged, 99, vec![1; nonce], Refusal::Header),
                (&bad_chunk, 99, vec![1; nonce], Refusal::Chunk(0)),
            ] {
                let mut mended = file.to_vec();
                let length = vault.mend(&mut mended, from, b"x", &nonces);
                assert_eq!((length, &mended[..]), (Err(refusal), file));
            }
        }
    }

    /// It takes no nonce, needs a good header, and changes nothing.
    #[test]
    fn empty_ranges() {
        for vault in Combo::ALL.map(vault) {
            for len in [0, 5] {
                let old = file(&vault, &cleartext(len));
                let mut bad_header = old.clone();
                bad_header[30] ^= 1;
                for (file, from, nonces, end) in [
                    (&old, 0, 0, Ok(0)),
                    (&old, len as u64, 0, Ok(0)),
                    (&old, len as u64 + 1, 0, Err(Refusal::Range)),
                    (&old, u64::MAX, 0, Err(Refusal::Range)),
                    (
                        &old,
                        0,
                        vault.combo.nonce_len(),
                        Err(Refusal::KeyOrNonceSize),
                    ),
                    (&bad_header, 0, 0, Err(Refusal::Header)),
                ] {
                    let mut mended = file.clone();
                    let length = vault.mend(&mut mended, from, &[], &vec![9; nonces]);
                    assert_eq!((length, &mended), (end, file));
                }
            }
        }
    }
}
