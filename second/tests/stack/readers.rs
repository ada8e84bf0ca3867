//! Readers: made, read through, and refused.

use super::calls::{Depth, CONTENT_KEY, ENC, MAC};
use super::measure::used;
use crate::common::readers::{open_reader, reader_read};
use second::vault::{Vault, READER_KEYS_LEN};
use skrapnefja::Combo;

/// Four chunks, the last of one byte.
const LEN: usize = 3 * 32_768 + 1;

pub fn depths(combo: Combo) -> Vec<Depth> {
    let vault = [&ENC[..], &MAC, &[combo as u8, 220]].concat();
    let file = file(&vault, combo);
    let (mut keys, mut none) = ([0; READER_KEYS_LEN], [0; READER_KEYS_LEN]);
    let open = ends(0, || open_reader(&vault, &file, &mut keys, &mut 0));
    let mut damaged = file.clone();
    damaged[combo.header_len() - 1] ^= 1;
    let not_opened = ends(9, || open_reader(&vault, &damaged, &mut none, &mut 0));
    damaged[combo.header_len()] ^= 1;
    vec![
        ("open_reader", open),
        ("open_reader, refused", not_opened),
        ("reader_read", read(&file, &keys, 0)),
        ("reader_read, refused", read(&damaged, &keys, 10)),
        ("reader_read, of no bytes", read(&file, &none, 4)),
    ]
}

fn file(vault: &[u8], combo: Combo) -> Vec<u8> {
    let nonce = vec![4; combo.nonce_len()];
    let nonces: Vec<_> = (0..4 * combo.nonce_len() as u8).collect();
    let mut file = vec![0; combo.header_len() + LEN + 4 * combo.chunk_overhead()];
    let vault = Vault::from_bytes(vault).expect("a vault");
    let length = vault.write_file(&nonce, &CONTENT_KEY, &nonces, &[7; LEN], &mut file);
    assert_eq!(length, Ok(file.len()));
    file
}

/// What a read over three chunks used that must end in this row.
fn read(file: &[u8], keys: &[u8], row: u32) -> usize {
    let mut out = vec![0; 65_536];
    ends(row, || {
        reader_read(file, keys, 17, 65_536, &mut out, &mut 0, &mut 0)
    })
}

/// What a call used that must end in this row, or in 0.
fn ends(row: u32, mut call: impl FnMut() -> u32) -> usize {
    let mut end = u32::MAX;
    let bytes = used(|| end = call());
    assert_eq!(end, row);
    bytes
}
