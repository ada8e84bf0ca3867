//! Vaults and files for tests.

use super::{Combo, Vault, CHUNK_LEN};

pub const CONTENT_KEY: [u8; 32] = [4; 32];

pub fn vault(combo: Combo) -> Vault {
    vault_with(combo, 220)
}

/// With any byte as its threshold.
pub fn vault_with(combo: Combo, threshold: u8) -> Vault {
    Vault {
        enc: [1; 32],
        mac: [2; 32],
        combo,
        threshold,
    }
}

pub fn header_nonce(vault: &Vault) -> Vec<u8> {
    vec![3; vault.combo.nonce_len()]
}

/// A nonce for each chunk of a cleartext of up to 256 chunks.
pub fn chunk_nonces(vault: &Vault, cleartext: &[u8]) -> Vec<u8> {
    let chunks = 0..cleartext.len().div_ceil(CHUNK_LEN);
    let nonces = chunks.map(|i| vec![i as u8; vault.combo.nonce_len()]);
    nonces.collect::<Vec<_>>().concat()
}

pub fn cleartext(len: usize) -> Vec<u8> {
    (0..len).map(|i| (i ^ i >> 8) as u8).collect()
}

pub fn file(vault: &Vault, cleartext: &[u8]) -> Vec<u8> {
    let nonces = chunk_nonces(vault, cleartext);
    let length = vault.file_length(cleartext.len() as u64);
    let mut out = vec![0; length.expect("within the limit") as usize];
    let nonce = header_nonce(vault);
    let written = vault.write_file(&nonce, &CONTENT_KEY, &nonces, cleartext, &mut out);
    assert_eq!(written, Ok(out.len()));
    out
}
