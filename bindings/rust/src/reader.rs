//! Files that are kept open.

use crate::call::{done, safely};
use crate::{Refusal, Vault};
use std::fmt::{self, Debug, Formatter};

/// The bytes in the keys of a reader: the content key, the MAC master key in
/// SIV_CTRMAC or zeros in SIV_GCM, and one byte for the combo.
pub const READER_KEYS_LEN: usize = 65;

/// A file that is kept open, which [`Vault::open_reader`] makes: the file's
/// bytes, which are borrowed, and what its chunks are read with, so that the
/// header is not opened again. It does not need the vault.
///
/// Keep it as secret as the vault: it has the content key of the file, and in
/// SIV_CTRMAC the MAC master key. The encryption master key is not in it. Its
/// memory is not wiped.
///
/// While the file is lent to a reader, nothing can change it:
///
/// ```compile_fail,E0502
/// use skrapnefja::{Refusal, Vault};
///
/// fn correct(vault: &Vault, file: &mut [u8], nonce: &[u8]) -> Result<usize, Refusal> {
///     let (length, reader) = vault.open_reader(file);
///     length?;
///     vault.mend(file, 0, b"18:12", nonce)?;
///     reader.read(0, 5, &mut [0; 5])
/// }
/// ```
#[derive(Clone)]
pub struct Reader<'a> {
    file: &'a [u8],
    keys: [u8; READER_KEYS_LEN],
}

impl Vault {
    /// Opens the header of a file, and gives the length of the cleartext, and
    /// beside it the reader of the file. No chunk is looked at. Refused with rows
    /// 4 and 9; the reader is then one of no bytes, through which every read is
    /// refused with row 4.
    ///
    /// ```
    /// use skrapnefja::{Combo, Label, Refusal, Vault};
    ///
    /// fn page(vault: &Vault, file: &[u8], mut send: impl FnMut(&[u8])) -> Result<(), Refusal> {
    ///     let (length, reader) = vault.open_reader(file);
    ///     let length = length? as u64;
    ///     let mut page = [0; 200];
    ///     for from in (0..length).step_by(200) {
    ///         let count = reader.read(from, 200.min(length - from), &mut page)?;
    ///         send(&page[..count]);
    ///     }
    ///     Ok(())
    /// }
    ///
    /// let label = Label { combo: Combo::SivGcm, threshold: 220 };
    /// let vault = Vault::new(&[1; 32], &[2; 32], label)?;
    /// let mut file = [0; 68 + 28 + 5];
    /// vault.write_file(&[4; 12], &[3; 32], &[5; 12], b"18:12", &mut file)?;
    /// page(&vault, &file, |part| assert_eq!(part, b"18:12"))?;
    ///
    /// file[0] ^= 1;
    /// let (length, reader) = vault.open_reader(&file);
    /// assert_eq!(length, Err(Refusal::Header));
    /// assert_eq!(reader.read(0, 5, &mut [0; 5]), Err(Refusal::Length));
    /// # Ok::<(), Refusal>(())
    /// ```
    pub fn open_reader<'a>(&self, file: &'a [u8]) -> (Result<usize, Refusal>, Reader<'a>) {
        let (vault, mut keys, mut length) = (&self.bytes, [0; READER_KEYS_LEN], 0);
        let status = safely!(skrapnefja_open_reader:
            in vault, in file, out keys, set length,);
        (done(status, length, 0), Reader { file, keys })
    }
}

impl Reader<'_> {
    /// Writes `count` bytes of the cleartext of the file, those after its first
    /// `from` bytes, and gives their number: answer and buffer are those of
    /// [`Vault::read_range`] for this file and the vault that made the reader,
    /// but that through the reader of a refused file every read gets row 4.
    /// Only the chunks that have some of these bytes are looked at, all of them
    /// before the first byte is written, and of the header its nonce. Refused
    /// with rows 4, 6, 7 and 10. Neighbouring reads add up, as those of
    /// [`Vault::read_range`] do.
    pub fn read(&self, from: u64, count: u64, out: &mut [u8]) -> Result<usize, Refusal> {
        let (file, keys, mut length, mut at) = (self.file, &self.keys, 0, 0);
        let status = safely!(skrapnefja_reader_read:
            in file, in keys, val from, val count, out out, set length, set at,);
        done(status, length, at)
    }
}

/// Shows the length of the file, and no key.
impl Debug for Reader<'_> {
    fn fmt(&self, f: &mut Formatter) -> fmt::Result {
        f.debug_struct("Reader")
            .field("file_len", &self.file.len())
            .finish_non_exhaustive()
    }
}
