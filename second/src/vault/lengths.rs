//! Lengths of files and of their cleartext (row 4).

use super::{Combo, Refusal, Vault};

/// The cleartext in every chunk but the last, which may have less.
pub const CHUNK_LEN: usize = 32_768;

/// The longest cleartext of a file: 512 chunks.
pub const MAX_CLEARTEXT_LEN: u64 = 16_777_216;

impl Vault {
    /// The length of the file with a cleartext of this length.
    pub fn file_length(&self, cleartext_length: u64) -> Result<u64, Refusal> {
        Refusal::Length.unless(cleartext_length <= MAX_CLEARTEXT_LEN)?;
        let chunks = cleartext_length.div_ceil(CHUNK_LEN as u64);
        let overhead = chunks * self.combo.overhead() as u64;
        Ok(self.combo.header_len() as u64 + cleartext_length + overhead)
    }

    /// The length of the cleartext of a file of this length.
    pub fn cleartext_length(&self, file_length: u64) -> Result<u64, Refusal> {
        self.combo.cleartext_length(file_length)
    }
}

impl Combo {
    /// The same of a file of this combo.
    pub(super) fn cleartext_length(self, file_length: u64) -> Result<u64, Refusal> {
        let chunks = file_length.checked_sub(self.header_len() as u64);
        let chunks = chunks.ok_or(Refusal::Length)?;
        let stored_chunk = self.stored_chunk_len() as u64;
        let overhead = self.overhead() as u64;
        let (whole, rest) = (chunks / stored_chunk, chunks % stored_chunk);
        Refusal::Length.unless(rest == 0 || rest > overhead)?;
        let length = whole * CHUNK_LEN as u64 + rest.saturating_sub(overhead);
        Refusal::Length.unless(length <= MAX_CLEARTEXT_LEN)?;
        Ok(length)
    }
}

#[cfg(test)]
mod tests {
    use super::super::samples::vault;
    use super::*;

    #[test]
    fn examples() {
        for (cleartext, files) in [
            (0, [68, 88]),
            (1, [97, 137]),
            (32_768, [32_864, 32_904]),
            (32_769, [32_893, 32_953]),
            (16_777_216, [16_791_620, 16_801_880]),
        ] {
            for (vault, file) in Combo::ALL.map(vault).iter().zip(files) {
                assert_eq!(vault.file_length(cleartext), Ok(file));
                assert_eq!(vault.cleartext_length(file), Ok(cleartext));
            }
        }
        for vault in Combo::ALL.map(vault) {
            assert_eq!(vault.file_length(16_777_217), Err(Refusal::Length));
            assert_eq!(vault.file_length(u64::MAX), Err(Refusal::Length));
        }
    }

    /// A file length is one of the lengths that cleartexts give, or refused.
    #[test]
    fn inverse() {
        for vault in Combo::ALL.map(vault) {
            let mut next = 0;
            for cleartext in 0..=100_000 {
                let file = vault.file_length(cleartext).expect("within the limit");
                for none in next..file {
                    assert_eq!(vault.cleartext_length(none), Err(Refusal::Length));
                }
                assert_eq!(vault.cleartext_length(file), Ok(cleartext));
                next = file + 1;
            }
        }
    }

    #[test]
    fn too_long() {
        for (vault, longest) in Combo::ALL.map(vault).iter().zip([16_791_620, 16_801_880]) {
            for file in longest + 1..=longest + 100_000 {
                assert_eq!(vault.cleartext_length(file), Err(Refusal::Length));
            }
            for file in u64::MAX - 100_000..=u64::MAX {
                assert_eq!(vault.cleartext_length(file), Err(Refusal::Length));
            }
        }
    }
}
