//! Inputs that are timed.

use crate::random::Random;
use crate::text::random_character;
use second::vault::{make_vault, Combo, CHUNK_LEN, MAX_CLEARTEXT_LEN, VAULT_LEN};
use std::ops::RangeInclusive;

pub const ENC: [u8; 32] = [0x55; 32];
pub const MAC: [u8; 32] = [0x77; 32];
pub const CONTENT_KEY: [u8; 32] = [0x33; 32];
pub const RAW_KEY: [u8; 64] = [0x44; 64];
pub const DIR_ID: &[u8] = b"e9250eb8-078d-4fc0-8835-be92a313360c";

/// The threshold of most vaults.
const THRESHOLD: u32 = 220;

/// The same vault for each program.
pub struct Vaults {
    pub library: skrapnefja::Vault,
    pub second: second::vault::Vault,
}

impl Vaults {
    pub fn new(combo: Combo) -> Self {
        let same = match combo {
            Combo::SivGcm => skrapnefja::Combo::SivGcm,
            Combo::SivCtrmac => skrapnefja::Combo::SivCtrmac,
        };
        let label = skrapnefja::Label {
            combo: same,
            threshold: THRESHOLD,
        };
        Vaults {
            library: skrapnefja::Vault::new(&ENC, &MAC, label).expect("two keys"),
            second: second::vault::Vault::new(&ENC, &MAC, combo, THRESHOLD).expect("two keys"),
        }
    }
}

/// The same vault as bytes.
pub fn vault_bytes(combo: Combo) -> [u8; VAULT_LEN] {
    let mut bytes = [0; VAULT_LEN];
    let made = make_vault(&ENC, &MAC, combo.number().into(), THRESHOLD, &mut bytes);
    made.expect("two keys");
    bytes
}

/// What a file of the longest length is made of.
pub struct Cleartext {
    pub bytes: Vec<u8>,
    pub header_nonce: Vec<u8>,
    pub chunk_nonces: Vec<u8>,
}

impl Cleartext {
    pub fn new(combo: Combo) -> Self {
        let mut random = Random::new(1);
        let bytes = random.bytes(MAX_CLEARTEXT_LEN as usize);
        let chunks = bytes.len().div_ceil(CHUNK_LEN);
        Cleartext {
            bytes,
            header_nonce: vec![0x11; combo.nonce_len()],
            chunk_nonces: random.bytes(chunks * combo.nonce_len()),
        }
    }

    pub fn file(&self, vaults: &Vaults) -> Vec<u8> {
        let vault = &vaults.second;
        let length = vault.file_length(self.bytes.len() as u64);
        let mut file = vec![0; length.expect("within the limit") as usize];
        vault
            .write_file(
                &self.header_nonce,
                &CONTENT_KEY,
                &self.chunk_nonces,
                &self.bytes,
                &mut file,
            )
            .expect("nothing to refuse");
        file
    }
}

/// Places of ranges of this length, anywhere in the longest cleartext.
pub fn places(number: usize, len: usize) -> Vec<u64> {
    let mut random = Random::new(2);
    let end = MAX_CLEARTEXT_LEN as usize - len;
    (0..number).map(|_| random.below(end + 1) as u64).collect()
}

/// Names of any of these lengths, each in one alphabet.
pub fn names(number: usize, lengths: RangeInclusive<usize>) -> Vec<Vec<u8>> {
    let mut random = Random::new(3);
    (0..number)
        .map(|_| {
            let len = lengths.start() + random.below(lengths.end() - lengths.start() + 1);
            name(&mut random, len)
        })
        .collect()
}

/// Letters of one alphabet, those that differ from some character in the last
/// six bits only; where none fits any more, other letters of one byte.
fn name(random: &mut Random, len: usize) -> Vec<u8> {
    let width = 1 + random.below(4);
    let first = u32::from(random_character(random, width)) & !0x3f;
    let mut name = String::new();
    while name.len() < len {
        let letter = char::from_u32(first + random.below(64) as u32);
        match letter.filter(|letter| !matches!(letter, '\0' | '/')) {
            Some(letter) if name.len() + width <= len => name.push(letter),
            Some(_) => name.push(random_character(random, 1)),
            None => {}
        }
    }
    name.into_bytes()
}
