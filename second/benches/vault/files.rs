//! Whole files, ranges of them, readers and mends, in each combo.

use crate::inputs::{places, Cleartext, Vaults, CONTENT_KEY};
use crate::time::both;
use crate::{mends, readers};
use second::vault::Combo;

pub const RANGES: usize = 1000;
pub const RANGE_LEN: usize = 200;

pub fn run() {
    for (combo, name) in [(Combo::SivGcm, "SIV_GCM"), (Combo::SivCtrmac, "SIV_CTRMAC")] {
        let vaults = Vaults::new(combo);
        let cleartext = Cleartext::new(combo);
        let file = cleartext.file(&vaults);
        write(name, &vaults, &cleartext, file.len());
        open(name, &vaults, &file, cleartext.bytes.len());
        read_ranges(name, &vaults, &file);
        readers::run(combo, name, &vaults, &file);
        mends::run(combo, name, &vaults, &cleartext, &file);
    }
}

fn write(combo: &str, vaults: &Vaults, cleartext: &Cleartext, len: usize) {
    let Cleartext {
        bytes,
        header_nonce,
        chunk_nonces,
    } = cleartext;
    both(
        &format!("{combo}: file of 16 MiB written"),
        &mut [vec![0; len]],
        |out| {
            let vault = &vaults.library;
            vault.write_file(header_nonce, &CONTENT_KEY, chunk_nonces, bytes, &mut out[0])
        },
        |out| {
            let vault = &vaults.second;
            vault.write_file(header_nonce, &CONTENT_KEY, chunk_nonces, bytes, &mut out[0])
        },
    );
}

fn open(combo: &str, vaults: &Vaults, file: &[u8], len: usize) {
    both(
        &format!("{combo}: file of 16 MiB opened"),
        &mut [vec![0; len]],
        |out| vaults.library.open_file(file, &mut out[0]),
        |out| vaults.second.open_file(file, &mut out[0]),
    );
}

fn read_ranges(combo: &str, vaults: &Vaults, file: &[u8]) {
    let places = places(RANGES, RANGE_LEN);
    let count = RANGE_LEN as u64;
    both(
        &format!("{combo}: {RANGES} ranges of {RANGE_LEN} bytes of it"),
        &mut vec![vec![0; RANGE_LEN]; RANGES],
        |out| {
            let reads = out.iter_mut().zip(&places);
            reads
                .map(|(out, &from)| vaults.library.read_range(file, from, count, out))
                .sum()
        },
        |out| {
            let reads = out.iter_mut().zip(&places);
            reads
                .map(|(out, &from)| vaults.second.read_range(file, from, count, out))
                .sum()
        },
    );
}
