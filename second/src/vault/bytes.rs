//! A vault as bytes: the encryption master key, the MAC master key, the number
//! of the combo in one byte, and the shortening threshold in another.

use super::sizes::{put, room, sized};
use super::threshold::{check_threshold, threshold};
use super::{Combo, Refusal, Vault};
use crate::aes::KEY_LEN;

pub const VAULT_LEN: usize = 2 * KEY_LEN + 2;

/// Writes the vault of these keys, of the combo with this number and of this
/// threshold.
pub fn make_vault(
    enc: &[u8],
    mac: &[u8],
    combo: u32,
    number: u32,
    out: &mut [u8],
) -> Result<usize, Refusal> {
    let [enc, mac]: [&[u8; KEY_LEN]; 2] = [sized(enc)?, sized(mac)?];
    room(out, VAULT_LEN)?;
    let numbers = [Combo::of_number(combo)?.number(), threshold(number)?];
    Ok(put(out, &[&enc[..], mac, &numbers].concat()))
}

impl Vault {
    /// The vault that a caller lends as bytes. Its size (row 1) and its combo
    /// (row 17) are looked at before all else that is lent. Its threshold can be
    /// any.
    pub fn from_bytes(bytes: &[u8]) -> Result<Self, Refusal> {
        let [keys @ .., combo, threshold] = sized::<VAULT_LEN>(bytes)?;
        let (enc, mac) = keys.split_at(KEY_LEN);
        Ok(Vault {
            enc: *sized(enc)?,
            mac: *sized(mac)?,
            combo: Combo::of_number(u32::from(*combo))?,
            threshold: *threshold,
        })
    }

    /// The same for a call on names: its threshold (row 18) is looked at before
    /// its combo.
    pub fn for_names(bytes: &[u8]) -> Result<Self, Refusal> {
        let [.., threshold] = sized::<VAULT_LEN>(bytes)?;
        check_threshold(*threshold)?;
        Vault::from_bytes(bytes)
    }
}

#[cfg(test)]
mod tests {
    use super::*;

    const ENC: [u8; KEY_LEN] = [1; KEY_LEN];
    const MAC: [u8; KEY_LEN] = [2; KEY_LEN];

    #[test]
    fn there_and_back() {
        for combo in Combo::ALL {
            for threshold in 36..=220 {
                let mut out = [7; VAULT_LEN + 2];
                let made = make_vault(&ENC, &MAC, combo.number().into(), threshold, &mut out);
                assert_eq!(made, Ok(VAULT_LEN));
                assert_eq!(out[..32], ENC);
                assert_eq!(out[32..64], MAC);
                assert_eq!(out[64..], [combo.number(), threshold as u8, 7, 7]);
                for lent in [Vault::from_bytes, Vault::for_names] {
                    let vault = lent(&out[..VAULT_LEN]).expect("a vault");
                    assert_eq!((vault.enc, vault.mac, vault.combo), (ENC, MAC, combo));
                    assert_eq!(u32::from(vault.threshold), threshold);
                }
            }
        }
    }

    /// Each row with all that are tried after it.
    #[test]
    fn rows() {
        for (enc, mac, room, combo, threshold, refusal) in [
            (31, 32, 65, 3, 35, Refusal::KeyOrNonceSize),
            (32, 33, 65, 3, 35, Refusal::KeyOrNonceSize),
            (32, 32, 65, 3, 35, Refusal::Room),
            (32, 32, 66, 3, 35, Refusal::Combo),
            (32, 32, 66, 0x101, 221, Refusal::Combo),
            (32, 32, 66, 1, 35, Refusal::Threshold),
            (32, 32, 66, 2, 221, Refusal::Threshold),
            (32, 32, 66, 2, 256 + 36, Refusal::Threshold),
        ] {
            let mut out = vec![7; room];
            let made = make_vault(&vec![1; enc], &vec![2; mac], combo, threshold, &mut out);
            assert_eq!((made, out), (Err(refusal), vec![7; room]));
        }
    }

    /// Only a vault of the right size has a combo and a threshold to look at.
    #[test]
    fn other_sizes() {
        for len in (0..=2 * VAULT_LEN).filter(|&len| len != VAULT_LEN) {
            for byte in 0..=255 {
                for lent in [Vault::from_bytes, Vault::for_names] {
                    let refusal = lent(&vec![byte; len]).err();
                    assert_eq!(refusal, Some(Refusal::KeyOrNonceSize));
                }
            }
        }
    }

    #[test]
    fn lent() {
        for combo in 0..=255 {
            for threshold in 0..=255 {
                let bytes = [&ENC[..], &MAC, &[combo, threshold]].concat();
                let no_combo = (!matches!(combo, 1 | 2)).then_some(Refusal::Combo);
                let refusal = match threshold {
                    36..=220 => no_combo,
                    _ => Some(Refusal::Threshold),
                };
                assert_eq!(Vault::from_bytes(&bytes).err(), no_combo);
                assert_eq!(Vault::for_names(&bytes).err(), refusal);
            }
        }
    }
}
