//! A message with its sealed form by GCM.

use super::check;
use super::damage::Damage;
use super::random::Random;
use second::gcm::{self, TAG_LEN};

#[derive(Clone)]
pub struct Message {
    pub key: Vec<u8>,
    pub nonce: Vec<u8>,
    pub aad: Vec<u8>,
    pub cleartext: Vec<u8>,
    pub sealed: Vec<u8>,
}

impl Message {
    pub fn new(key: &[u8; 32], nonce: &[u8; 12], aad: &[u8], cleartext: &[u8]) -> Self {
        Message {
            key: key.to_vec(),
            nonce: nonce.to_vec(),
            aad: aad.to_vec(),
            cleartext: cleartext.to_vec(),
            sealed: gcm::seal(key, nonce, aad, cleartext),
        }
    }

    pub fn random(random: &mut Random, aad_len: usize, cleartext_len: usize) -> Self {
        Message::new(
            &random.array(),
            &random.array(),
            &random.bytes(aad_len),
            &random.bytes(cleartext_len),
        )
    }

    /// Compares sealing, with an `out` that is long enough.
    pub fn seals(&self, random: &mut Random) -> bool {
        let spare = random.below(20);
        let out = random.bytes(self.cleartext.len() + TAG_LEN + spare);
        self.seals_to(&out)
    }

    pub fn seals_to(&self, out: &[u8]) -> bool {
        check::gcm_seal(&self.key, &self.nonce, &self.aad, &self.cleartext, out)
    }

    /// Compares opening, with an `out` that is long enough.
    pub fn opens(&self, random: &mut Random) -> bool {
        let spare = random.below(20);
        let out = random.bytes(self.sealed.len().saturating_sub(TAG_LEN) + spare);
        self.opens_to(&out)
    }

    pub fn opens_to(&self, out: &[u8]) -> bool {
        check::gcm_open(&self.key, &self.nonce, &self.aad, &self.sealed, out)
    }
}

impl Damage for Message {
    fn inputs(&mut self) -> Vec<&mut Vec<u8>> {
        vec![
            &mut self.key,
            &mut self.nonce,
            &mut self.aad,
            &mut self.sealed,
        ]
    }
}
