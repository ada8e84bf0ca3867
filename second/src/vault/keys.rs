//! The keys that headers or chunks are under.

use super::{Combo, Vault};
use crate::aes::KEY_LEN;

/// A key, and in SIV_CTRMAC the MAC master key beside it.
pub enum Keys {
    SivGcm {
        key: [u8; KEY_LEN],
    },
    SivCtrmac {
        key: [u8; KEY_LEN],
        mac: [u8; KEY_LEN],
    },
}

impl Vault {
    /// Headers are under the encryption master key, chunks under a content key.
    pub(super) fn keys(&self, key: &[u8; KEY_LEN]) -> Keys {
        Keys::new(self.combo, key, &self.mac)
    }
}

impl Keys {
    pub fn new(combo: Combo, key: &[u8; KEY_LEN], mac: &[u8; KEY_LEN]) -> Self {
        match combo {
            Combo::SivGcm => Keys::SivGcm { key: *key },
            Combo::SivCtrmac => Keys::SivCtrmac {
                key: *key,
                mac: *mac,
            },
        }
    }

    pub fn combo(&self) -> Combo {
        match self {
            Keys::SivGcm { .. } => Combo::SivGcm,
            Keys::SivCtrmac { .. } => Combo::SivCtrmac,
        }
    }
}
