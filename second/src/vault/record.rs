//! What a caller lends as the vault.

use super::sizes::sized;
use super::threshold::threshold;
use super::{Combo, Refusal};
use crate::aes::KEY_LEN;

/// The master keys of a vault, its cipher combo and its shortening threshold.
/// The calls are its methods.
pub struct Vault {
    pub(super) enc: [u8; KEY_LEN],
    pub(super) mac: [u8; KEY_LEN],
    pub(super) combo: Combo,
    /// What is lent may have any: only the calls on names look at it.
    pub(super) threshold: u8,
}

impl Vault {
    /// Both keys have the right size, whichever a call uses (row 1), and the
    /// threshold is one (row 18).
    pub fn new(enc: &[u8], mac: &[u8], combo: Combo, number: u32) -> Result<Self, Refusal> {
        Ok(Vault {
            enc: *sized(enc)?,
            mac: *sized(mac)?,
            combo,
            threshold: threshold(number)?,
        })
    }

    /// The size of a nonce goes by the combo (row 1).
    pub(super) fn check_nonce(&self, nonce: &[u8]) -> Result<(), Refusal> {
        Refusal::KeyOrNonceSize.unless(nonce.len() == self.combo.nonce_len())
    }
}

#[cfg(test)]
mod tests {
    use super::super::samples::vault;
    use super::*;

    #[test]
    fn key_sizes() {
        for combo in Combo::ALL {
            for enc in 0..=64 {
                for mac in 0..=64 {
                    for (threshold, refusal) in [(220, None), (35, Some(Refusal::Threshold))] {
                        let made = Vault::new(&vec![1; enc], &vec![2; mac], combo, threshold);
                        let refusal = match (enc, mac) {
                            (KEY_LEN, KEY_LEN) => refusal,
                            _ => Some(Refusal::KeyOrNonceSize),
                        };
                        assert_eq!(made.err(), refusal);
                    }
                }
            }
        }
    }

    #[test]
    fn what_it_holds() {
        let [enc, mac] = [1, 2].map(|byte| [byte; KEY_LEN]);
        for combo in Combo::ALL {
            for threshold in 36..=220 {
                let vault = Vault::new(&enc, &mac, combo, threshold).expect("two keys");
                assert_eq!((vault.enc, vault.mac, vault.combo), (enc, mac, combo));
                assert_eq!(u32::from(vault.threshold), threshold);
            }
        }
    }

    #[test]
    fn nonce_sizes() {
        for (combo, right) in Combo::ALL.into_iter().zip([12, 16]) {
            for len in 0..=32 {
                let fits = vault(combo).check_nonce(&vec![3; len]).is_ok();
                assert_eq!(fits, len == right);
            }
        }
    }
}
