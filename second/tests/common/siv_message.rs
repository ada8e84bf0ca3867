//! A message with its sealed form by SIV.

use super::check;
use super::damage::Damage;
use super::random::Random;
use second::aes::BLOCK_LEN;
use second::siv::{self, IV_LEN};

#[derive(Clone)]
pub struct Message {
    pub mac_key: Vec<u8>,
    pub enc_key: Vec<u8>,
    pub ad_given: u32,
    pub ad: Vec<u8>,
    pub cleartext: Vec<u8>,
    pub sealed: Vec<u8>,
}

impl Message {
    pub fn new(
        mac_key: &[u8; 32],
        enc_key: &[u8; 32],
        ad: Option<&[u8]>,
        cleartext: &[u8],
    ) -> Self {
        Message {
            mac_key: mac_key.to_vec(),
            enc_key: enc_key.to_vec(),
            ad_given: u32::from(ad.is_some()),
            ad: ad.unwrap_or(b"not looked at").to_vec(),
            cleartext: cleartext.to_vec(),
            sealed: siv::seal(mac_key, enc_key, ad.as_slice(), cleartext),
        }
    }

    pub fn random(random: &mut Random, ad_len: Option<usize>, cleartext_len: usize) -> Self {
        let ad = ad_len.map(|len| random.bytes(len));
        Message::new(
            &random.array(),
            &random.array(),
            ad.as_deref(),
            &random.bytes(cleartext_len),
        )
    }

    /// Compares sealing, with an `out` that is long enough.
    pub fn seals(&self, random: &mut Random) -> bool {
        let spare = random.below(20);
        let out = random.bytes(IV_LEN + self.cleartext.len() + spare);
        self.seals_to(&out)
    }

    pub fn seals_to(&self, out: &[u8]) -> bool {
        check::siv_seal(
            &self.mac_key,
            &self.enc_key,
            self.ad_given,
            &self.ad,
            &self.cleartext,
            out,
        )
    }

    /// Compares opening, with an `out` that is long enough.
    pub fn opens(&self, random: &mut Random) -> bool {
        let spare = random.below(20);
        let out = random.bytes(self.sealed.len().saturating_sub(IV_LEN) + spare);
        self.opens_to(&out)
    }

    pub fn opens_to(&self, out: &[u8]) -> bool {
        check::siv_open(
            &self.mac_key,
            &self.enc_key,
            self.ad_given,
            &self.ad,
            &self.sealed,
            out,
        )
    }
}

impl Damage for Message {
    /// Without associated data that is not given, and without the encryption
    /// key of a short cleartext: another key may encrypt it to the same bytes.
    fn inputs(&mut self) -> Vec<&mut Vec<u8>> {
        let mut inputs = vec![&mut self.mac_key];
        if self.cleartext.len() >= BLOCK_LEN {
            inputs.push(&mut self.enc_key);
        }
        if self.ad_given != 0 {
            inputs.push(&mut self.ad);
        }
        inputs.push(&mut self.sealed);
        inputs
    }
}
