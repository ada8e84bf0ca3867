//! Vaults.

use super::with_room;
use crate::case::{Call, Case};
use crate::common::random::Random;
use crate::format::{COMBO_PLACE, THRESHOLDS, THRESHOLD_PLACE, VAULT};
use second::vault::Combo;

/// A vault of random keys and of any byte as its threshold, for the calls that
/// do not look at it.
pub fn vault(random: &mut Random, combo: Combo) -> Vec<u8> {
    let threshold = random.below(256) as u8;
    vault_at(random, combo, threshold)
}

/// A vault of random keys and of this threshold.
pub fn vault_at(random: &mut Random, combo: Combo, threshold: u8) -> Vec<u8> {
    let [enc, mac] = [32, 32].map(|len| random.bytes(len));
    with_threshold(&vault_of(&enc, &mac, combo), threshold)
}

/// The vault of these keys, with the largest threshold.
pub fn vault_of(enc: &[u8], mac: &[u8], combo: Combo) -> Vec<u8> {
    let number = match combo {
        Combo::SivGcm => 1,
        Combo::SivCtrmac => 2,
    };
    [enc, mac, &[number, *THRESHOLDS.end()]].concat()
}

/// The vault with this combo.
pub fn with_combo(vault: &[u8], combo: Combo) -> Vec<u8> {
    let mut vault = vault.to_vec();
    vault[COMBO_PLACE] = combo.number();
    vault
}

/// The vault with this threshold, or a byte that is none.
pub fn with_threshold(vault: &[u8], threshold: u8) -> Vec<u8> {
    let mut vault = vault.to_vec();
    vault[THRESHOLD_PLACE] = threshold;
    vault
}

/// A threshold, often at an edge.
pub fn threshold(random: &mut Random) -> u8 {
    let (least, most) = THRESHOLDS.into_inner();
    match random.below(4) {
        0 => least + random.below(4) as u8,
        1 => most - random.below(4) as u8,
        _ => least + random.below(THRESHOLDS.len()) as u8,
    }
}

/// The encryption and the MAC master key of a vault.
pub fn master_keys(vault: &[u8]) -> (&[u8; 32], &[u8; 32]) {
    let (enc, rest) = vault.split_first_chunk().expect("a key");
    let (mac, _) = rest.split_first_chunk().expect("another");
    (enc, mac)
}

pub fn make_vault(random: &mut Random, combo: Combo) -> Case {
    let inputs = [32, 32].map(|len| random.bytes(len)).to_vec();
    let numbers = [combo.number(), threshold(random)].map(u64::from);
    with_room(Call::MakeVault, random, inputs, &numbers, VAULT)
}
