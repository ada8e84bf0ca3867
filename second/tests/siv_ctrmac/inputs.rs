//! All that a file is made of.

use crate::common::random::Random;
use crate::{plain, NONCE};
use second::vault::{Combo, Vault, CHUNK_LEN};
use std::ops::Range;

pub struct Inputs {
    pub enc: [u8; 32],
    pub mac: [u8; 32],
    pub header_nonce: [u8; NONCE],
    pub content_key: [u8; 32],
    pub nonces: Vec<[u8; NONCE]>,
    pub cleartext: Vec<u8>,
}

impl Inputs {
    pub fn new(random: &mut Random, len: usize) -> Self {
        Inputs {
            enc: random.array(),
            mac: random.array(),
            header_nonce: random.array(),
            content_key: random.array(),
            nonces: (0..len.div_ceil(CHUNK_LEN))
                .map(|_| random.array())
                .collect(),
            cleartext: random.bytes(len),
        }
    }

    fn vault(&self) -> Vault {
        Vault::new(&self.enc, &self.mac, Combo::SivCtrmac, 220).expect("two keys")
    }

    /// Fails unless `second` writes the plain file.
    pub fn check(&self) {
        let expected = plain::file(self);
        let vault = self.vault();
        let mut file = vec![0; expected.len()];
        let written = vault.write_file(
            &self.header_nonce,
            &self.content_key,
            self.nonces.as_flattened(),
            &self.cleartext,
            &mut file,
        );
        assert_eq!(written, Ok(expected.len()));
        assert!(file == expected, "another file");
    }

    /// Fails unless `second` mends the plain file to that of the changed inputs:
    /// random bytes in this range, and new nonces for its chunks.
    pub fn check_mend(mut self, random: &mut Random, range: Range<usize>) {
        let mut file = plain::file(&self);
        let new = random.bytes(range.len());
        self.cleartext[range.clone()].copy_from_slice(&new);
        let chunks = range.start / CHUNK_LEN..range.end.div_ceil(CHUNK_LEN);
        for nonce in &mut self.nonces[chunks.clone()] {
            *nonce = random.array();
        }
        let nonces = self.nonces[chunks].as_flattened();
        let from = range.start as u64;
        let mended = self.vault().mend(&mut file, from, &new, nonces);
        assert_eq!(mended, Ok(new.len()));
        assert!(file == plain::file(&self), "another file");
    }
}
