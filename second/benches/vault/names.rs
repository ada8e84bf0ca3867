//! Names that are stored as they are. Either combo has the same.

use crate::inputs::{names, Vaults, DIR_ID};
use crate::time::both;
use second::vault::{Combo, Refusal, WrittenName};

const NAMES: usize = 10_000;
const LONGEST: usize = 146;
const LONGEST_STORED: usize = 220;

pub fn run() {
    let vaults = Vaults::new(Combo::SivGcm);
    let names = names(NAMES, 1..=LONGEST);
    write(&vaults, &names);
    open(&vaults, &names);
}

fn write(vaults: &Vaults, names: &[Vec<u8>]) {
    both(
        &format!("{NAMES} names of 1 to {LONGEST} bytes written"),
        &mut vec![vec![0; LONGEST_STORED]; names.len()],
        |out| {
            let writes = out.iter_mut().zip(names);
            writes
                .map(|(out, name)| by_library(&vaults.library, name, out))
                .sum()
        },
        |out| {
            let writes = out.iter_mut().zip(names);
            writes
                .map(|(out, name)| by_second(&vaults.second, name, out))
                .sum()
        },
    );
}

/// Writes a name and gives the length of its stored form.
fn by_library(
    vault: &skrapnefja::Vault,
    name: &[u8],
    out: &mut [u8],
) -> Result<usize, skrapnefja::Refusal> {
    match vault.write_name(DIR_ID, name, out, &mut [])? {
        skrapnefja::WrittenName::Plain(length) => Ok(length),
        skrapnefja::WrittenName::Shortened { .. } => panic!("a short name is shortened"),
    }
}

/// The same by the second program.
fn by_second(vault: &second::vault::Vault, name: &[u8], out: &mut [u8]) -> Result<usize, Refusal> {
    match vault.write_name(DIR_ID, name, out, &mut [])? {
        WrittenName::Plain(length) => Ok(length),
        WrittenName::Shortened { .. } => panic!("a short name is shortened"),
    }
}

fn open(vaults: &Vaults, names: &[Vec<u8>]) {
    let stored: Vec<_> = names.iter().map(|name| stored(vaults, name)).collect();
    both(
        &format!("{NAMES} names opened"),
        &mut vec![vec![0; LONGEST]; names.len()],
        |out| {
            let opens = out.iter_mut().zip(&stored);
            opens
                .map(|(out, stored)| vaults.library.open_name(DIR_ID, stored, out))
                .sum()
        },
        |out| {
            let opens = out.iter_mut().zip(&stored);
            opens
                .map(|(out, stored)| vaults.second.open_name(DIR_ID, stored, out))
                .sum()
        },
    );
}

fn stored(vaults: &Vaults, name: &[u8]) -> Vec<u8> {
    let mut stored = vec![0; LONGEST_STORED];
    let length = by_second(&vaults.second, name, &mut stored);
    stored.truncate(length.expect("nothing to refuse"));
    stored
}
