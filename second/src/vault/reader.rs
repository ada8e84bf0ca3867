//! Readers: files that are kept open.

mod bytes;

use super::chunk::ChunkCipher;
use super::cipher::Cipher;
use super::header;
use super::keys::Keys;
use super::read::read;
use super::{Refusal, Vault};

pub use bytes::{open_reader, READER_KEYS_LEN};

/// A file that is lent, and the keys of its chunks, since its header has passed.
/// The default is the reader of no bytes.
#[derive(Default)]
pub struct Reader<'a> {
    file: &'a [u8],
    keys: Option<Keys>,
}

impl Vault {
    /// Makes a reader, and gives the length of the cleartext; or a refusal, and
    /// beside it the reader of no bytes.
    pub fn open_reader<'a>(&self, file: &'a [u8]) -> (Result<u64, Refusal>, Reader<'a>) {
        match self.length_and_keys(file) {
            Ok((length, keys)) => {
                let keys = Some(keys);
                (Ok(length), Reader { file, keys })
            }
            Err(refusal) => (Err(refusal), Reader::default()),
        }
    }

    /// Of the cleartext (row 4) and of the chunks (row 9).
    fn length_and_keys(&self, file: &[u8]) -> Result<(u64, Keys), Refusal> {
        let length = self.cleartext_length(file.len() as u64)?;
        let header = &file[..self.combo.header_len()];
        let payload = header::open(&self.header_cipher(), header)?;
        Ok((length, self.keys(&payload.content_key)))
    }
}

impl Reader<'_> {
    /// Writes `count` bytes of the cleartext, after its first `from` bytes. Of
    /// the header it looks at the nonce alone.
    pub fn read(&self, from: u64, count: u64, out: &mut [u8]) -> Result<usize, Refusal> {
        let keys = self.keys.as_ref().ok_or(Refusal::Length)?;
        let combo = keys.combo();
        read(combo, self.file, from, count, out, |header| {
            let header_nonce = &header[..combo.nonce_len()];
            Ok(ChunkCipher::new(Cipher::new(keys), header_nonce))
        })
    }
}

#[cfg(test)]
mod tests {
    use super::super::samples::{cleartext, file, vault};
    use super::super::{Combo, CHUNK_LEN};
    use super::*;

    /// Three chunks, the last of four bytes.
    const LEN: usize = 2 * CHUNK_LEN + 4;

    /// Places at the edges of chunks and of the cleartext, and behind it.
    const EDGES: [u64; 11] = [
        0, 1, 17, 32_767, 32_768, 32_769, 65_535, 65_536, 65_539, 65_540, 65_541,
    ];

    /// Ranges from each of these places to each, some of which have their end
    /// before their start: their length is then too large by far.
    fn ranges() -> impl Iterator<Item = (u64, u64)> {
        let of = |from: u64| EDGES.map(|end| (from, end.wrapping_sub(from)));
        EDGES.into_iter().flat_map(of)
    }

    /// What a read gives, and its buffer.
    type Read = (Result<usize, Refusal>, Vec<u8>);

    fn by_reader(reader: &Reader, (from, count): (u64, u64)) -> Read {
        let mut out = vec![7; LEN];
        (reader.read(from, count, &mut out), out)
    }

    fn by_vault(vault: &Vault, file: &[u8], (from, count): (u64, u64)) -> Read {
        let mut out = vec![7; LEN];
        (vault.read_range(file, from, count, &mut out), out)
    }

    /// Forwards and backwards: no read alters what a later one gives.
    #[test]
    fn as_range_reads() {
        for vault in Combo::ALL.map(vault) {
            let file = file(&vault, &cleartext(LEN));
            let (length, reader) = vault.open_reader(&file);
            assert_eq!(length, Ok(LEN as u64));
            let backwards: Vec<_> = ranges().collect();
            for range in ranges().chain(backwards.into_iter().rev()) {
                assert!(by_reader(&reader, range) == by_vault(&vault, &file, range));
            }
        }
    }

    #[test]
    fn damaged_chunks() {
        for vault in Combo::ALL.map(vault) {
            for damaged in 0..3 {
                let mut file = file(&vault, &cleartext(LEN));
                let chunk = vault.combo.header_len() + damaged * vault.combo.stored_chunk_len();
                file[chunk + 20] ^= 1;
                let (length, reader) = vault.open_reader(&file);
                assert_eq!(length, Ok(LEN as u64));
                for range in ranges() {
                    assert!(by_reader(&reader, range) == by_vault(&vault, &file, range));
                }
                let (read, out) = by_reader(&reader, (0, LEN as u64));
                assert_eq!(read, Err(Refusal::Chunk(damaged as u64)));
                assert!(out == [7; LEN]);
            }
        }
    }

    /// The rest of the header is not looked at again, but its nonce is used.
    #[test]
    fn header_damaged_later() {
        for vault in Combo::ALL.map(vault) {
            let good = file(&vault, &cleartext(40));
            let (_, Reader { keys, .. }) = vault.open_reader(&good);
            let mut damaged = good.clone();
            damaged[vault.combo.nonce_len()..vault.combo.header_len()].fill(0);
            let reader = Reader {
                file: &damaged,
                keys,
            };
            assert!(by_reader(&reader, (3, 30)) == by_vault(&vault, &good, (3, 30)));

            let keys = reader.keys;
            damaged[vault.combo.nonce_len() - 1] ^= 1;
            let reader = Reader {
                file: &damaged,
                keys,
            };
            let (read, _) = by_reader(&reader, (3, 30));
            assert_eq!(read, Err(Refusal::Chunk(0)));
            assert_eq!(reader.read(3, 0, &mut []), Ok(0));
        }
    }

    /// Row 4 and row 9, and then row 4 whatever is read.
    #[test]
    fn no_bytes() {
        for vault in Combo::ALL.map(vault) {
            let good = file(&vault, &cleartext(100));
            for place in 0..vault.combo.header_len() {
                let mut damaged = good.clone();
                damaged[place] ^= 0x10;
                let (length, reader) = vault.open_reader(&damaged);
                assert_eq!(length, Err(Refusal::Header));
                every_read_is_row_4(&reader);
                let (length, reader) = vault.open_reader(&damaged[..place]);
                assert_eq!(length, Err(Refusal::Length));
                every_read_is_row_4(&reader);
            }
        }
        every_read_is_row_4(&Reader::default());
    }

    fn every_read_is_row_4(reader: &Reader) {
        for range in [(0, 0), (0, 1), (99, 1), (0, 100), (u64::MAX, u64::MAX)] {
            let end = by_reader(reader, range);
            assert!(end == (Err(Refusal::Length), vec![7; LEN]));
        }
    }

    /// Each row with all that are tried after it.
    #[test]
    fn rows() {
        for vault in Combo::ALL.map(vault) {
            let mut bad_chunk = file(&vault, &cleartext(100));
            let last = bad_chunk.len() - 1;
            bad_chunk[last] ^= 1;
            let (_, reader) = vault.open_reader(&bad_chunk);
            for (from, count, room, refusal) in [
                (u64::MAX, 2, 0, Refusal::Range),
                (99, 2, 0, Refusal::Range),
                (99, 1, 0, Refusal::Room),
                (99, 1, 1, Refusal::Chunk(0)),
            ] {
                let mut out = vec![7; room];
                let read = reader.read(from, count, &mut out);
                assert_eq!((read, out), (Err(refusal), vec![7; room]));
            }
        }
    }
}
