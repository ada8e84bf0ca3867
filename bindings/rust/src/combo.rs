//! The cipher combos, and the sizes that go by them.

/// How the contents of files are encrypted. Names and paths are the same in
/// both. `vault.cryptomator` has a vault's as `cipherCombo`. The numbers are
/// those that C has.
#[derive(Clone, Copy, Debug, PartialEq, Eq, Hash)]
pub enum Combo {
    /// AES in Galois/Counter Mode.
    SivGcm = 1,
    /// AES in counter mode and HMAC-SHA-256, as older vaults have it.
    SivCtrmac = 2,
}

impl Combo {
    /// The combo that has this number in C.
    pub(crate) fn numbered(number: u32) -> Self {
        match number {
            1 => Combo::SivGcm,
            2 => Combo::SivCtrmac,
            _ => unreachable!("the library has no combo {number}"),
        }
    }

    /// The bytes in the nonce of a header or a chunk: 12 in SIV_GCM, 16 in
    /// SIV_CTRMAC.
    pub const fn nonce_len(self) -> usize {
        match self {
            Combo::SivGcm => 12,
            Combo::SivCtrmac => 16,
        }
    }

    /// The bytes in a file header: 68 in SIV_GCM, 88 in SIV_CTRMAC.
    pub const fn header_len(self) -> usize {
        match self {
            Combo::SivGcm => 68,
            Combo::SivCtrmac => 88,
        }
    }

    /// What a chunk has beside its cleartext, a nonce and a tag or MAC: 28
    /// bytes in SIV_GCM, 48 in SIV_CTRMAC.
    pub const fn chunk_overhead(self) -> usize {
        match self {
            Combo::SivGcm => 28,
            Combo::SivCtrmac => 48,
        }
    }
}
