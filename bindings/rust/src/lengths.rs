//! The lengths of files and of their cleartexts, which go by the combo.

use crate::call::{done, safely};
use crate::{Refusal, Vault};

/// The most cleartext in one file.
pub const MAX_CLEARTEXT_LEN: usize = 16_777_216;

impl Vault {
    /// The length of the file with a cleartext of this length. Refused with
    /// row 4.
    pub fn file_length(&self, cleartext_length: u64) -> Result<usize, Refusal> {
        let (vault, mut length) = (&self.bytes, 0);
        let status = safely!(skrapnefja_file_length:
            in vault, val cleartext_length, set length,);
        done(status, length, 0)
    }

    /// The length of the cleartext in a file of this length. Refused with row 4.
    pub fn cleartext_length(&self, file_length: u64) -> Result<usize, Refusal> {
        let (vault, mut length) = (&self.bytes, 0);
        let status = safely!(skrapnefja_cleartext_length:
            in vault, val file_length, set length,);
        done(status, length, 0)
    }
}
