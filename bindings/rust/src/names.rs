//! Names of entries, and paths of directories. Both are the same in either
//! combo.

use crate::call::{done, safely};
use crate::{Refusal, Vault};

/// The longest name, in bytes.
pub const MAX_NAME_LEN: usize = 1020;

/// The longest stored name, under any threshold.
pub const MAX_STORED_LEN: usize = 220;

/// The longest full name.
pub const MAX_FULL_LEN: usize = 1388;

/// The bytes in the path of a directory.
pub const PATH_LEN: usize = 36;

/// The lengths of a written name.
#[derive(Clone, Copy, Debug, PartialEq, Eq, Hash)]
pub enum WrittenName {
    /// The full name itself is stored, with this length.
    Plain(usize),
    /// The full name is longer than the threshold: its hash name is stored.
    Shortened {
        /// The length of the stored name.
        stored: usize,
        /// The length of the full name, which goes into `name.c9s`.
        full: usize,
    },
}

impl Vault {
    /// Encrypts a name, which is proper text: well-formed UTF-8 without a zero
    /// byte and without '/'. That it is in Normalization Form C is the caller's
    /// to see to. The stored name goes to `stored`; if it is shortened, the full
    /// name goes to `full`, which otherwise stays and may be empty. Buffers of
    /// [`MAX_STORED_LEN`] and [`MAX_FULL_LEN`] bytes have room for any name.
    /// Refused with rows 2, 3 and 7.
    pub fn write_name(
        &self,
        dir_id: &[u8],
        name: &[u8],
        stored: &mut [u8],
        full: &mut [u8],
    ) -> Result<WrittenName, Refusal> {
        let (vault, mut length, mut full_length) = (&self.bytes, 0, 0);
        let status = safely!(skrapnefja_write_name:
            in vault, in dir_id, in name, out stored, out full, set length, set full_length,);
        let stored = done(status, length, 0)?;
        Ok(match full_length as usize {
            0 => WrittenName::Plain(stored),
            full => WrittenName::Shortened { stored, full },
        })
    }

    /// Writes the name of a stored full name, and gives its length. What is
    /// written is UTF-8. A buffer of [`MAX_NAME_LEN`] bytes has room for any
    /// name. Refused with rows 2, 5, 7, 12 and then 3. Row 5 has the place in
    /// `stored` where it is broken, or where it gets too long for the threshold.
    ///
    /// ```
    /// # use skrapnefja::{Combo, Label, Refusal, Vault};
    /// # let label = Label { combo: Combo::SivGcm, threshold: 220 };
    /// # let vault = Vault::new(&[1; 32], &[2; 32], label)?;
    /// let mangled = b"l9FzfPEc4alEQu_U5mc5!H00yhk=.c9r";
    /// let refusal = vault.open_name(b"", mangled, &mut [0; 220]).unwrap_err();
    /// assert_eq!(refusal, Refusal::Text(20));
    /// assert_eq!(mangled[20], b'!');
    /// # Ok::<(), Refusal>(())
    /// ```
    pub fn open_name(
        &self,
        dir_id: &[u8],
        stored: &[u8],
        out: &mut [u8],
    ) -> Result<usize, Refusal> {
        let (vault, mut length, mut at) = (&self.bytes, 0, 0);
        let status = safely!(skrapnefja_open_name:
            in vault, in dir_id, in stored, out out, set length, set at,);
        done(status, length, at)
    }

    /// Writes the name with this stored and this full name, and gives its
    /// length. What is written is UTF-8. A buffer of [`MAX_NAME_LEN`] bytes has
    /// room for any name. Refused with rows 2, 5, 7, 11, 12 and then 3. Row 5
    /// has the place in `full` where it is broken.
    pub fn open_long_name(
        &self,
        dir_id: &[u8],
        stored: &[u8],
        full: &[u8],
        out: &mut [u8],
    ) -> Result<usize, Refusal> {
        let (vault, mut length, mut at) = (&self.bytes, 0, 0);
        let status = safely!(skrapnefja_open_long_name:
            in vault, in dir_id, in stored, in full, out out, set length, set at,);
        done(status, length, at)
    }

    /// Writes the path of the directory with this ID below the vault's root, 36
    /// bytes, and gives their number. Refused with rows 2 and 7.
    pub fn dir_path(&self, dir_id: &[u8], out: &mut [u8]) -> Result<usize, Refusal> {
        let (vault, mut length) = (&self.bytes, 0);
        let status = safely!(skrapnefja_dir_path: in vault, in dir_id, out out, set length,);
        done(status, length, 0)
    }
}
