//! Whole files, and ranges of them.

use crate::call::{done, safely};
use crate::{Refusal, Vault, CHUNK_LEN};

/// How many chunks a range covers: those that have some of the `count` bytes
/// after the first `from` of a cleartext. It takes any numbers, also those of a
/// range that no file has, and nothing wraps. Row 1 of [`Vault::mend`] counts
/// so.
///
/// ```
/// use skrapnefja::covering_chunks;
///
/// assert_eq!(covering_chunks(32_768, 1), 1);
/// assert_eq!(covering_chunks(32_767, 2), 2);
/// assert_eq!(covering_chunks(32_767, 0), 0);
/// ```
pub const fn covering_chunks(from: u64, count: u64) -> u64 {
    const LEN: u64 = CHUNK_LEN as u64;
    if count == 0 {
        return 0;
    }
    // The last byte stands from % LEN + after bytes behind the first chunk's start.
    let after = count - 1;
    let carry = (from % LEN + after % LEN) / LEN;
    after / LEN + carry + 1
}

impl Vault {
    /// Writes a whole file and gives its length, which
    /// [`file_length`](Vault::file_length) tells before. The chunk nonces are
    /// one after the other, one for each chunk, and must all differ. Refused
    /// with rows 1, 4, 7 and 8.
    pub fn write_file(
        &self,
        header_nonce: &[u8],
        content_key: &[u8],
        chunk_nonces: &[u8],
        cleartext: &[u8],
        out: &mut [u8],
    ) -> Result<usize, Refusal> {
        let (vault, mut length) = (&self.bytes, 0);
        let status = safely!(skrapnefja_write_file:
            in vault, in header_nonce, in content_key, in chunk_nonces, in cleartext,
            out out, set length,);
        done(status, length, 0)
    }

    /// Writes the cleartext of a file and gives its length, which
    /// [`cleartext_length`](Vault::cleartext_length) tells before. Refused with
    /// rows 4, 7, 9 and 10.
    pub fn open_file(&self, file: &[u8], out: &mut [u8]) -> Result<usize, Refusal> {
        let (vault, mut length, mut at) = (&self.bytes, 0, 0);
        let status = safely!(skrapnefja_open_file:
            in vault, in file, out out, set length, set at,);
        done(status, length, at)
    }

    /// Writes `count` bytes of the cleartext of a file, those after its first
    /// `from` bytes, and gives their number. Only the header and the chunks
    /// that have some of these bytes are looked at, and all of them before the
    /// first byte is written. Refused with rows 4, 6, 7, 9 and 10.
    ///
    /// Neighbouring reads add up: with room, those from a to b and from b to c
    /// both succeed exactly when that from a to c does, and give its bytes. Where
    /// c is not behind the end of the cleartext, the one from a to c is refused
    /// exactly when one of the two is, as the first that is, with its chunk.
    pub fn read_range(
        &self,
        file: &[u8],
        from: u64,
        count: u64,
        out: &mut [u8],
    ) -> Result<usize, Refusal> {
        let (vault, mut length, mut at) = (&self.bytes, 0, 0);
        let status = safely!(skrapnefja_read_range:
            in vault, in file, val from, val count, out out, set length, set at,);
        done(status, length, at)
    }

    /// Mends a file in place: replaces bytes of its cleartext, those after its
    /// first `from` bytes, by as many new ones, and gives their number. The
    /// length stays. The chunks that have some of these bytes are sealed again,
    /// each with its nonce, once the header and all of them are found good. No
    /// other byte of the file changes, and the other chunks may be bad. Without
    /// new bytes only the header is looked at, and nothing changes. After a mend
    /// that succeeded, a read with this vault, or through a reader that it makes
    /// of the file, that has none of the replaced bytes ends as before, with the
    /// same answer and the same bytes.
    ///
    /// The nonces are one after the other, one for each of these chunks:
    /// [`covering_chunks`] tells how many. They must differ from each other and
    /// from those of all chunks now in the file, also of bad ones. Refused with
    /// rows 1, 4, 6, 8, 9 and 10, and the file is then as it was.
    ///
    /// The mend is done in the caller's memory. While it runs, the cleartext of
    /// one chunk at a time stands there: lend memory that nobody else reads, not
    /// a map of the stored file. Storing it safely is the caller's: if power is
    /// lost in the middle, a half-written file can be left on a card. The bytes
    /// to store afterwards are those from the start of the first of these chunks
    /// to the end of the last; chunk i starts at place
    /// `header_len() + (CHUNK_LEN + chunk_overhead()) * i` of
    /// the file, with the sizes of its [`Combo`](crate::Combo).
    ///
    /// ```
    /// use skrapnefja::{covering_chunks, Refusal, Vault};
    ///
    /// fn correct(
    ///     vault: &Vault,
    ///     file: &mut [u8],
    ///     from: u64,
    ///     new_bytes: &[u8],
    ///     fill_at_random: impl FnOnce(&mut [u8]),
    /// ) -> Result<usize, Refusal> {
    ///     let chunks = covering_chunks(from, new_bytes.len() as u64);
    ///     let mut nonces = vec![0; chunks as usize * vault.combo().nonce_len()];
    ///     fill_at_random(&mut nonces);
    ///     vault.mend(file, from, new_bytes, &nonces)
    /// }
    /// ```
    pub fn mend(
        &self,
        file: &mut [u8],
        from: u64,
        new_bytes: &[u8],
        nonces: &[u8],
    ) -> Result<usize, Refusal> {
        let (vault, mut length, mut at) = (&self.bytes, 0, 0);
        let status = safely!(skrapnefja_mend:
            in vault, out file, val from, in new_bytes, in nonces, set length, set at,);
        done(status, length, at)
    }
}
