//! Sizes, as the format has them.

use second::vault::{Combo, CHUNK_LEN};
use std::ops::RangeInclusive;

pub const VAULT: usize = 66;
/// Where a vault has the number of its combo, and where its threshold.
pub const COMBO_PLACE: usize = 64;
pub const THRESHOLD_PLACE: usize = 65;
pub const THRESHOLDS: RangeInclusive<u8> = 36..=220;
/// The keys of a reader, which have the number of the combo where a vault has it.
pub const READER_KEYS: usize = 65;
pub const RAW_KEY: usize = 64;
pub const LONGEST_LABEL: usize = 4096;
pub const LONGEST_CLEARTEXT: usize = 16_777_216;
/// The longest name that is stored as it is where the threshold is the largest.
pub const LONGEST_PLAIN: usize = 146;
pub const LONGEST_NAME: usize = 1020;
pub const LONGEST_FULL_NAME: usize = 1388;
pub const WRAPPED_KEY: usize = 40;

/// The sizes that go by the combo.
pub struct Sizes {
    pub nonce: usize,
    pub header: usize,
    /// What a chunk has beside its cleartext.
    pub overhead: usize,
    /// A whole chunk as it is stored.
    pub chunk: usize,
    pub longest_file: usize,
}

impl Sizes {
    /// The file of a cleartext of this length.
    pub fn file(&self, cleartext: usize) -> usize {
        self.header + cleartext + cleartext.div_ceil(CHUNK_LEN) * self.overhead
    }

    /// Whether some file has this length.
    pub fn fits(&self, len: usize) -> bool {
        let rest = len.checked_sub(self.header).map(|rest| rest % self.chunk);
        let fits = rest.is_some_and(|rest| rest == 0 || rest > self.overhead);
        fits && len <= self.longest_file
    }

    /// Lengths around those of no cleartext, of a chunk's overhead, of one chunk
    /// and of the most chunks.
    pub fn around_edges(&self) -> impl Iterator<Item = usize> {
        let one_chunk = self.header + self.chunk;
        let edges = [
            self.header,
            self.header + self.overhead,
            one_chunk,
            one_chunk + self.overhead,
        ];
        let near = edges.into_iter().flat_map(|edge| edge - 3..=edge + 3);
        let longest = self.longest_file - 1..=self.longest_file + 1;
        let more = [self.overhead + 1, self.chunk].map(|more| self.longest_file + more);
        near.chain(longest).chain(more)
    }
}

pub fn sizes(combo: Combo) -> Sizes {
    match combo {
        Combo::SivGcm => Sizes {
            nonce: 12,
            header: 68,
            overhead: 28,
            chunk: 32_796,
            longest_file: 16_791_620,
        },
        Combo::SivCtrmac => Sizes {
            nonce: 16,
            header: 88,
            overhead: 48,
            chunk: 32_816,
            longest_file: 16_801_880,
        },
    }
}

pub fn name(combo: Combo) -> &'static str {
    match combo {
        Combo::SivGcm => "SIV_GCM",
        Combo::SivCtrmac => "SIV_CTRMAC",
    }
}

pub fn other(combo: Combo) -> Combo {
    match combo {
        Combo::SivGcm => Combo::SivCtrmac,
        Combo::SivCtrmac => Combo::SivGcm,
    }
}

/// The combo of bytes that are a vault.
pub fn combo_of(vault: &[u8]) -> Option<Combo> {
    match vault {
        [.., 1, _] if vault.len() == VAULT => Some(Combo::SivGcm),
        [.., 2, _] if vault.len() == VAULT => Some(Combo::SivCtrmac),
        _ => None,
    }
}

/// The combo of bytes that are the keys of a reader, and not those of no bytes.
pub fn combo_of_keys(keys: &[u8]) -> Option<Combo> {
    match keys {
        [.., 1] if keys.len() == READER_KEYS => Some(Combo::SivGcm),
        [.., 2] if keys.len() == READER_KEYS => Some(Combo::SivCtrmac),
        _ => None,
    }
}

/// The length of the full name of a name of this length.
pub fn full_len(name: usize) -> usize {
    (16 + name).div_ceil(3) * 4 + 4
}

/// The longest name whose full name is not longer than the threshold.
pub fn longest_plain(threshold: u8) -> usize {
    (usize::from(threshold) - 4) / 4 * 3 - 16
}
