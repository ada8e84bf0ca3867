//! The cipher combos, and the sizes that go by them.

use super::header::PAYLOAD_LEN;
use super::lengths::CHUNK_LEN;
use super::Refusal;
use crate::json::{is, Text};
use crate::{ctr_hmac, gcm};

/// How the contents of files are encrypted. Names are by SIV in both.
#[derive(Clone, Copy, Debug, PartialEq, Eq)]
pub enum Combo {
    /// AES in Galois/Counter Mode.
    SivGcm,
    /// AES in counter mode and HMAC-SHA-256, as older vaults have it.
    SivCtrmac,
}

impl Combo {
    pub const ALL: [Combo; 2] = [Combo::SivGcm, Combo::SivCtrmac];

    /// What stands for it in the bytes of a vault.
    pub fn number(self) -> u8 {
        match self {
            Combo::SivGcm => 1,
            Combo::SivCtrmac => 2,
        }
    }

    /// By its number (row 17).
    pub fn of_number(number: u32) -> Result<Self, Refusal> {
        let mut combos = Combo::ALL.into_iter();
        let found = combos.find(|combo| u32::from(combo.number()) == number);
        found.ok_or(Refusal::Combo)
    }

    /// What stands for it in a label.
    pub fn name(self) -> &'static str {
        match self {
            Combo::SivGcm => "SIV_GCM",
            Combo::SivCtrmac => "SIV_CTRMAC",
        }
    }

    /// By its name (row 17).
    pub fn of_name(name: &Text) -> Result<Self, Refusal> {
        let mut combos = Combo::ALL.into_iter();
        let found = combos.find(|combo| is(name, combo.name()));
        found.ok_or(Refusal::Combo)
    }

    pub fn nonce_len(self) -> usize {
        match self {
            Combo::SivGcm => gcm::NONCE_LEN,
            Combo::SivCtrmac => ctr_hmac::NONCE_LEN,
        }
    }

    fn tag_len(self) -> usize {
        match self {
            Combo::SivGcm => gcm::TAG_LEN,
            Combo::SivCtrmac => ctr_hmac::TAG_LEN,
        }
    }

    /// What a header or chunk has beside its ciphertext.
    pub fn overhead(self) -> usize {
        self.nonce_len() + self.tag_len()
    }

    /// A header as it is stored.
    pub fn header_len(self) -> usize {
        PAYLOAD_LEN + self.overhead()
    }

    /// A whole chunk as it is stored.
    pub fn stored_chunk_len(self) -> usize {
        CHUNK_LEN + self.overhead()
    }
}

#[cfg(test)]
mod tests {
    use super::*;

    #[test]
    fn numbers() {
        assert_eq!(Combo::of_number(1), Ok(Combo::SivGcm));
        assert_eq!(Combo::of_number(2), Ok(Combo::SivCtrmac));
        for other in [0, 3, 255, 256, 257, 258, 1 << 16, u32::MAX] {
            assert_eq!(Combo::of_number(other), Err(Refusal::Combo));
        }
        for combo in Combo::ALL {
            assert_eq!(Combo::of_number(combo.number().into()), Ok(combo));
        }
    }

    #[test]
    fn names() {
        let of_name = |name: &str| Combo::of_name(&name.chars().map(u32::from).collect());
        assert_eq!(of_name("SIV_GCM"), Ok(Combo::SivGcm));
        assert_eq!(of_name("SIV_CTRMAC"), Ok(Combo::SivCtrmac));
        for other in [
            "",
            "SIV",
            "SIV_",
            "siv_gcm",
            "SIV_GCM ",
            "SIV_CTRMAC\0",
            "SIV-GCM",
            "1",
        ] {
            assert_eq!(of_name(other), Err(Refusal::Combo));
        }
    }

    #[test]
    fn sizes() {
        for (combo, sizes) in [
            (Combo::SivGcm, [12, 28, 68, 32_796]),
            (Combo::SivCtrmac, [16, 48, 88, 32_816]),
        ] {
            let own = [
                combo.nonce_len(),
                combo.overhead(),
                combo.header_len(),
                combo.stored_chunk_len(),
            ];
            assert_eq!(own, sizes);
        }
    }
}
