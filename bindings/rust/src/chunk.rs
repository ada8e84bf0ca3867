//! Single chunks.

use crate::call::{done, safely};
use crate::{Refusal, Vault};

/// The most cleartext in one chunk.
pub const CHUNK_LEN: usize = 32_768;

impl Vault {
    /// Writes a chunk, [`Combo::chunk_overhead`](crate::Combo::chunk_overhead)
    /// bytes longer than its cleartext, and gives its length. The number can be
    /// any. Refused with rows 1, 4 and 7.
    pub fn write_chunk(
        &self,
        content_key: &[u8],
        header_nonce: &[u8],
        number: u64,
        nonce: &[u8],
        cleartext: &[u8],
        out: &mut [u8],
    ) -> Result<usize, Refusal> {
        let (vault, mut length) = (&self.bytes, 0);
        let status = safely!(skrapnefja_write_chunk:
            in vault, in content_key, in header_nonce, val number, in nonce, in cleartext,
            out out, set length,);
        done(status, length, 0)
    }

    /// Writes the cleartext of a chunk and gives its length. Refused with rows
    /// 1, 4, 7 and 10, the last with the number that was given.
    pub fn open_chunk(
        &self,
        content_key: &[u8],
        header_nonce: &[u8],
        number: u64,
        chunk: &[u8],
        out: &mut [u8],
    ) -> Result<usize, Refusal> {
        let (vault, mut length, mut at) = (&self.bytes, 0, 0);
        let status = safely!(skrapnefja_open_chunk:
            in vault, in content_key, in header_nonce, val number, in chunk,
            out out, set length, set at,);
        done(status, length, at)
    }
}
