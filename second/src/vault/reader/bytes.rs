//! The keys of a reader as bytes: the content key, the MAC master key in
//! SIV_CTRMAC and zeros in SIV_GCM, and the number of the combo in one byte. All
//! zeros are those of the reader of no bytes.

use super::Reader;
use crate::aes::KEY_LEN;
use crate::vault::keys::Keys;
use crate::vault::sizes::{room, sized};
use crate::vault::{Combo, Refusal, Vault};

pub const READER_KEYS_LEN: usize = 2 * KEY_LEN + 1;

/// What the reader of no bytes has in place of a combo's number.
const NO_COMBO: u8 = 0;

/// Makes a reader by a vault that is lent as bytes, and writes its keys: also
/// those of the reader of no bytes where the file is refused, if there is room.
pub fn open_reader(vault: &[u8], file: &[u8], keys: &mut [u8]) -> Result<u64, Refusal> {
    let vault = Vault::from_bytes(vault)?;
    let (length, reader) = match with_room(&vault, file, keys) {
        Ok((length, reader)) => (Ok(length), reader),
        Err(refusal) => (Err(refusal), Reader::default()),
    };
    if let Some(front) = keys.first_chunk_mut() {
        *front = reader.to_bytes();
    }
    length
}

/// The room for the keys is looked at behind the file's length.
fn with_room<'a>(vault: &Vault, file: &'a [u8], keys: &[u8]) -> Result<(u64, Reader<'a>), Refusal> {
    vault.cleartext_length(file.len() as u64)?;
    room(keys, READER_KEYS_LEN)?;
    let (length, reader) = vault.open_reader(file);
    Ok((length?, reader))
}

impl<'a> Reader<'a> {
    /// The reader of a file and of keys that are lent as bytes. Their size (row
    /// 1) and their combo (row 17) are looked at before all else.
    pub fn from_bytes(file: &'a [u8], keys: &[u8]) -> Result<Self, Refusal> {
        let [keys @ .., number] = sized::<READER_KEYS_LEN>(keys)?;
        if *number == NO_COMBO {
            return Ok(Reader::default());
        }
        let combo = Combo::of_number(u32::from(*number))?;
        let (key, mac) = keys.split_at(KEY_LEN);
        let keys = Keys::new(combo, sized(key)?, sized(mac)?);
        Ok(Reader {
            file,
            keys: Some(keys),
        })
    }

    fn to_bytes(&self) -> [u8; READER_KEYS_LEN] {
        let mut bytes = [0; READER_KEYS_LEN];
        if let Some(keys) = &self.keys {
            let [key, mac] = match keys {
                Keys::SivGcm { key } => [key, &[0; KEY_LEN]],
                Keys::SivCtrmac { key, mac } => [key, mac],
            };
            bytes[..KEY_LEN].copy_from_slice(key);
            bytes[KEY_LEN..2 * KEY_LEN].copy_from_slice(mac);
            bytes[2 * KEY_LEN] = keys.combo().number();
        }
        bytes
    }
}

#[cfg(test)]
mod tests {
    use super::*;
    use crate::vault::make_vault;
    use crate::vault::samples::{self, cleartext, vault, CONTENT_KEY};
    use crate::vault::VAULT_LEN;

    /// Those of the samples' vaults and files.
    const MAC: [u8; KEY_LEN] = [2; KEY_LEN];

    /// The vault of the samples as bytes, and its file of five bytes.
    fn lent(combo: Combo) -> ([u8; VAULT_LEN], Vec<u8>) {
        let mut bytes = [0; VAULT_LEN];
        let made = make_vault(&[1; 32], &MAC, combo.number().into(), 220, &mut bytes);
        assert_eq!(made, Ok(VAULT_LEN));
        (bytes, samples::file(&vault(combo), b"hello"))
    }

    fn reads(file: &[u8], keys: &[u8]) -> Result<usize, Refusal> {
        Reader::from_bytes(file, keys)?.read(1, 3, &mut [0; 3])
    }

    /// The rest of a longer buffer stays.
    #[test]
    fn there_and_back() {
        for (combo, mac) in [(Combo::SivGcm, [0; 32]), (Combo::SivCtrmac, MAC)] {
            let (vault, file) = lent(combo);
            let mut keys = [7; READER_KEYS_LEN + 2];
            assert_eq!(open_reader(&vault, &file, &mut keys), Ok(5));
            let expected = [&CONTENT_KEY[..], &mac, &[combo.number()]].concat();
            assert_eq!(keys[..READER_KEYS_LEN], expected);
            assert_eq!(keys[READER_KEYS_LEN..], [7; 2]);

            let keys = &keys[..READER_KEYS_LEN];
            let reader = Reader::from_bytes(&file, keys).expect("a reader");
            assert_eq!(reader.to_bytes(), keys);
            let mut out = *b".....";
            assert_eq!(reader.read(1, 3, &mut out), Ok(3));
            assert_eq!(&out, b"ell..");
        }
    }

    /// SIV_GCM has no MAC key: any bytes may stand there.
    #[test]
    fn mac_key() {
        for (combo, read) in [
            (Combo::SivGcm, Ok(3)),
            (Combo::SivCtrmac, Err(Refusal::Chunk(0))),
        ] {
            let (_, file) = lent(combo);
            let keys = [&CONTENT_KEY[..], &[9; KEY_LEN], &[combo.number()]].concat();
            assert_eq!(reads(&file, &keys), read);
        }
    }

    /// Each row with all that are tried after it, by buffers that end before the
    /// keys would, and by some that do not.
    #[test]
    fn rows() {
        for combo in Combo::ALL {
            let (vault, file) = lent(combo);
            let mut other_combo = vault;
            other_combo[2 * KEY_LEN] = 3;
            let mut damaged = file.clone();
            damaged[20] ^= 1;
            let short = &damaged[..combo.header_len() - 1];
            let (room, less) = (READER_KEYS_LEN + 1, READER_KEYS_LEN - 1);
            for (vault, file, refusal, lens) in [
                (
                    &other_combo[1..],
                    short,
                    Refusal::KeyOrNonceSize,
                    [less, room],
                ),
                (&other_combo, short, Refusal::Combo, [less, room]),
                (&vault, short, Refusal::Length, [less, room]),
                (&vault, &damaged, Refusal::Room, [0, less]),
                (&vault, &damaged, Refusal::Header, [READER_KEYS_LEN, room]),
            ] {
                for len in lens {
                    let mut keys = vec![7; len];
                    assert_eq!(open_reader(vault, file, &mut keys), Err(refusal));
                    let mut expected = vec![7; len];
                    let of_the_file = [Refusal::Length, Refusal::Header].contains(&refusal);
                    if of_the_file && len > less {
                        expected[..READER_KEYS_LEN].fill(0);
                    }
                    assert_eq!(keys, expected);
                }
            }
        }
    }

    #[test]
    fn keys_that_are_lent() {
        for combo in Combo::ALL {
            let file = samples::file(&vault(combo), &cleartext(40));
            for len in (0..=2 * READER_KEYS_LEN).filter(|&len| len != READER_KEYS_LEN) {
                for byte in [0, combo.number(), 255] {
                    let read = reads(&file, &vec![byte; len]);
                    assert_eq!(read, Err(Refusal::KeyOrNonceSize));
                }
            }
            for number in 0..=255 {
                let keys = [&CONTENT_KEY[..], &MAC, &[number]].concat();
                match number {
                    NO_COMBO => assert_eq!(reads(&file, &keys), Err(Refusal::Length)),
                    _ if number == combo.number() => assert_eq!(reads(&file, &keys), Ok(3)),
                    1 | 2 => assert!(Reader::from_bytes(&file, &keys).is_ok()),
                    _ => assert_eq!(reads(&file, &keys), Err(Refusal::Combo)),
                }
            }
        }
    }
}
