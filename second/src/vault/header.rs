//! The file header: reserved bytes and the content key, encrypted.

use super::cipher::Cipher;
use super::sizes::{put, room, sized};
use super::{Refusal, Vault};
use crate::aes::KEY_LEN;

/// How many bytes stand before the content key. They are for later use, and
/// some programs put a number there.
const RESERVED_LEN: usize = 8;

/// What a writer puts there.
const OWN_RESERVED: [u8; RESERVED_LEN] = [0xff; RESERVED_LEN];

/// What a header encrypts.
pub const PAYLOAD_LEN: usize = RESERVED_LEN + KEY_LEN;

/// What is under the header's tag.
pub struct Payload {
    pub reserved: [u8; RESERVED_LEN],
    pub content_key: [u8; KEY_LEN],
}

impl Vault {
    pub fn write_header(
        &self,
        nonce: &[u8],
        content_key: &[u8],
        out: &mut [u8],
    ) -> Result<usize, Refusal> {
        self.check_nonce(nonce)?;
        let content_key = sized(content_key)?;
        let length = self.combo.header_len();
        room(out, length)?;
        seal(
            &self.header_cipher(),
            nonce,
            content_key,
            &mut out[..length],
        );
        Ok(length)
    }

    /// Writes the content key, and gives the reserved bytes beside its length.
    pub fn open_header(
        &self,
        header: &[u8],
        out: &mut [u8],
    ) -> Result<(usize, [u8; RESERVED_LEN]), Refusal> {
        Refusal::Length.unless(header.len() == self.combo.header_len())?;
        room(out, KEY_LEN)?;
        let payload = open(&self.header_cipher(), header)?;
        Ok((put(out, &payload.content_key), payload.reserved))
    }

    pub(super) fn header_cipher(&self) -> Cipher {
        Cipher::new(&self.keys(&self.enc))
    }
}

/// Writes a header of exactly the length of `out`.
pub fn seal(cipher: &Cipher, nonce: &[u8], content_key: &[u8; KEY_LEN], out: &mut [u8]) {
    let mut payload = [0; PAYLOAD_LEN];
    payload[..RESERVED_LEN].copy_from_slice(&OWN_RESERVED);
    payload[RESERVED_LEN..].copy_from_slice(content_key);
    cipher.seal(nonce, &[], &payload, out);
}

/// Gives the payload, whatever it is, if the tag is right (row 9).
pub fn open(cipher: &Cipher, header: &[u8]) -> Result<Payload, Refusal> {
    Refusal::Header.unless(cipher.verify(&[], header))?;
    let mut payload = [0; PAYLOAD_LEN];
    cipher.decrypt_part(header, 0, &mut payload);
    let (&reserved, content_key) = payload.split_first_chunk().expect("longer");
    let content_key = content_key.try_into().expect("the rest of a payload");
    Ok(Payload {
        reserved,
        content_key,
    })
}

#[cfg(test)]
mod tests {
    use super::super::samples::vault;
    use super::super::Combo;
    use super::*;
    use crate::hex;

    /// A value of the stock program's tests.
    #[test]
    fn stock_program() {
        let expected = "0000000000000000000000003158bfc2b29f9491074ec5d3baf39d18726003ca37a62a74\
                        d1a2f58e7506358edd4ab1284d4ae17b2fa66951ba3f4176441999\
                        47be128d4d";
        let expected = hex::decode(expected).expect("digits");
        let vault = Vault::new(&[0; 32], &[1; 32], Combo::SivGcm, 220).expect("two keys");
        let mut out = [7; 70];
        let length = vault.write_header(&[0; 12], &[0; 32], &mut out);
        assert_eq!(length, Ok(68));
        assert_eq!(out[..], [&expected[..], &[7; 2]].concat());
        let mut content_key = [7; 32];
        let opened = vault.open_header(&expected, &mut content_key);
        assert_eq!((opened, content_key), (Ok((32, OWN_RESERVED)), [0; 32]));
    }

    /// The tag is right, and another program wrote the reserved bytes.
    #[test]
    fn reserved_bytes() {
        for vault in Combo::ALL.map(vault) {
            let nonce = vec![5; vault.combo.nonce_len()];
            let mut header = vec![0; vault.combo.header_len()];
            for byte in 0..RESERVED_LEN {
                let mut payload = [6; PAYLOAD_LEN];
                payload[..RESERVED_LEN].copy_from_slice(&1234u64.to_be_bytes());
                payload[byte] ^= 0x80;
                let cipher = vault.header_cipher();
                cipher.seal(&nonce, &[], &payload, &mut header);
                let mut out = [7; 32];
                let opened = vault.open_header(&header, &mut out);
                let reserved = payload[..RESERVED_LEN].try_into().expect("eight");
                assert_eq!((opened, out), (Ok((32, reserved)), [6; 32]));
            }
        }
    }

    /// Each row with all that are tried after it.
    #[test]
    fn rows() {
        for vault in Combo::ALL.map(vault) {
            let (nonce, header) = (vault.combo.nonce_len(), vault.combo.header_len());
            for (nonce, key, room, refusal) in [
                (nonce - 1, 32, 0, Refusal::KeyOrNonceSize),
                (28 - nonce, 32, 0, Refusal::KeyOrNonceSize),
                (nonce, 31, 0, Refusal::KeyOrNonceSize),
                (nonce, 32, header - 1, Refusal::Room),
            ] {
                let mut out = vec![7; room];
                let written = vault.write_header(&vec![3; nonce], &vec![4; key], &mut out);
                assert_eq!((written, out), (Err(refusal), vec![7; room]));
            }
            for (header, room, refusal) in [
                (header - 1, 31, Refusal::Length),
                (156 - header, 31, Refusal::Length),
                (header, 31, Refusal::Room),
                (header, 32, Refusal::Header),
            ] {
                let mut out = vec![7; room];
                let opened = vault.open_header(&vec![3; header], &mut out);
                assert_eq!((opened, out), (Err(refusal), vec![7; room]));
            }
        }
    }
}
