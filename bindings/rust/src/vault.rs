//! The vault that the calls are made on.

use crate::call::{done, safely};
use crate::{Combo, Label, Refusal, RAW_KEY_LEN};
use std::fmt::{self, Debug, Formatter};

/// The bytes in a vault: two master keys, one for the combo, and one for the
/// threshold.
pub const VAULT_LEN: usize = 66;

/// The master keys of a vault and what its label says. Every call but those on
/// wrapped keys, [`Label::open`] and [`Reader::read`](crate::Reader::read) is a
/// method of it, and none is refused for the vault itself: its keys have their
/// size, its combo is known, and its threshold is within the limits.
///
/// Keep it as secret as the keys that are in it. Its memory is not wiped.
#[derive(Clone)]
pub struct Vault {
    pub(crate) bytes: [u8; VAULT_LEN],
}

impl Vault {
    /// The vault with this encryption and this MAC master key, 32 bytes each,
    /// and with the combo and the threshold of this label. Refused with rows 1
    /// and 18.
    pub fn new(enc: &[u8], mac: &[u8], label: Label) -> Result<Self, Refusal> {
        let (mut bytes, mut length) = ([0; VAULT_LEN], 0);
        let (combo, threshold) = (label.combo as u32, label.threshold);
        let status = safely!(skrapnefja_make_vault:
            in enc, in mac, val combo, val threshold, out bytes, set length,);
        done(status, length, 0)?;
        Ok(Vault { bytes })
    }

    /// The label it was made with.
    pub fn label(&self) -> Label {
        let combo = Combo::numbered(self.bytes[RAW_KEY_LEN].into());
        let threshold = self.bytes[RAW_KEY_LEN + 1].into();
        Label { combo, threshold }
    }

    /// The combo of its label, by which nonces have their size.
    pub fn combo(&self) -> Combo {
        self.label().combo
    }
}

/// Shows the label, and no key.
impl Debug for Vault {
    fn fmt(&self, f: &mut Formatter) -> fmt::Result {
        f.debug_struct("Vault")
            .field("label", &self.label())
            .finish_non_exhaustive()
    }
}
