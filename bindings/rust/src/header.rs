//! File headers.

use crate::call::{done, safely};
use crate::{Refusal, Vault};

/// What [`Vault::open_header`] found.
#[derive(Clone, Copy, Debug, PartialEq, Eq)]
pub struct OpenedHeader {
    /// The length of the content key that was written: 32.
    pub length: usize,
    /// The reserved bytes in their order. The format keeps them for later use:
    /// ours are all ff, and an old program may have put a file's size there.
    pub reserved: [u8; 8],
}

impl Vault {
    /// Writes a file header, its reserved bytes all ff, and gives its length,
    /// 68 in SIV_GCM and 88 in SIV_CTRMAC. Refused with rows 1 and 7.
    pub fn write_header(
        &self,
        nonce: &[u8],
        content_key: &[u8],
        out: &mut [u8],
    ) -> Result<usize, Refusal> {
        let (vault, mut length) = (&self.bytes, 0);
        let status = safely!(skrapnefja_write_header:
            in vault, in nonce, in content_key, out out, set length,);
        done(status, length, 0)
    }

    /// Writes the content key of a header, 32 bytes, and gives its length and
    /// the reserved bytes. Refused with rows 4, 7 and 9.
    pub fn open_header(&self, header: &[u8], out: &mut [u8]) -> Result<OpenedHeader, Refusal> {
        let (vault, mut length, mut reserved) = (&self.bytes, 0, 0);
        let status = safely!(skrapnefja_open_header:
            in vault, in header, out out, set length, set reserved,);
        let length = done(status, length, 0)?;
        let reserved = reserved.to_be_bytes();
        Ok(OpenedHeader { length, reserved })
    }
}
