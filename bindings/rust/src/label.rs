//! The label of a vault: what its `vault.cryptomator` says.

use crate::call::{done, safely};
use crate::refusal::NO_PLACE;
use crate::{Combo, Refusal};

/// The bytes in a raw key: the encryption master key, then the MAC master key.
pub const RAW_KEY_LEN: usize = 64;

/// The longest label, in bytes.
pub const MAX_LABEL_LEN: usize = 4096;

/// The least threshold.
pub const MIN_THRESHOLD: u32 = 36;

/// The greatest threshold.
pub const MAX_THRESHOLD: u32 = 220;

/// What a vault has beside its keys, and what its `vault.cryptomator` says.
/// [`Label::open`] reads it from there; where it is known from elsewhere, it is
/// made by hand:
///
/// ```
/// use skrapnefja::{Combo, Label, Refusal, Vault};
///
/// let label = Label { combo: Combo::SivGcm, threshold: 220 };
/// let vault = Vault::new(&[1; 32], &[2; 32], label)?;
/// assert_eq!(vault.label(), label);
/// # Ok::<(), Refusal>(())
/// ```
#[derive(Clone, Copy, Debug, PartialEq, Eq, Hash)]
pub struct Label {
    /// `cipherCombo`: how the contents of files are encrypted.
    pub combo: Combo,
    /// `shorteningThreshold`: a full name of more characters than this is
    /// stored by its hash name. It is [`MIN_THRESHOLD`] to [`MAX_THRESHOLD`].
    pub threshold: u32,
}

impl Label {
    /// Reads the label that is the whole of `vault.cryptomator`, once its
    /// signature under the raw key is found right. A line break behind it is
    /// none of its bytes, and row 13. Refused with rows 1 and 13 to 18, in
    /// their order. Row 13 has a place where a segment is broken.
    ///
    /// ```
    /// use skrapnefja::{Label, Refusal, Vault, KEY_LEN, RAW_KEY_LEN};
    ///
    /// fn unlock(raw_key: &[u8; RAW_KEY_LEN], label: &[u8]) -> Result<Vault, Refusal> {
    ///     let label = Label::open(raw_key, label)?;
    ///     let (enc, mac) = raw_key.split_at(KEY_LEN);
    ///     Vault::new(enc, mac, label)
    /// }
    ///
    /// let unlock = |label| unlock(&[7; RAW_KEY_LEN], label).unwrap_err();
    /// assert_eq!(unlock(b"not a label"), Refusal::Label(None));
    /// assert_eq!(unlock(b"eyJ9.ey 9.AAAA"), Refusal::Label(Some(7)));
    /// ```
    pub fn open(raw_key: &[u8], label: &[u8]) -> Result<Self, Refusal> {
        let (mut combo, mut threshold, mut at) = (0, 0, NO_PLACE);
        let status = safely!(skrapnefja_open_label:
            in raw_key, in label, set combo, set threshold, set at,);
        done(status, 0, at)?;
        let combo = Combo::numbered(combo);
        Ok(Label { combo, threshold })
    }
}
