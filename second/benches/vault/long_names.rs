//! Names that are shortened, up to the longest.

use crate::inputs::{names, Vaults, DIR_ID};
use crate::time::both;
use second::vault::{Combo, Refusal, WrittenName};

const NAMES: usize = 10_000;
const SHORTEST: usize = 147;
const LONGEST: usize = 1020;
const HASH_NAME: usize = 32;
const LONGEST_FULL_NAME: usize = 1388;

pub fn run() {
    let vaults = Vaults::new(Combo::SivGcm);
    let names = names(NAMES, SHORTEST..=LONGEST);
    write(&vaults, &names);
    open(&vaults, &names);
}

/// Two buffers for each name: its hash name, and its full name.
fn buffers() -> Vec<Vec<u8>> {
    let pair = [vec![0; HASH_NAME], vec![0; LONGEST_FULL_NAME]];
    pair.into_iter().cycle().take(2 * NAMES).collect()
}

fn write(vaults: &Vaults, names: &[Vec<u8>]) {
    both(
        &format!("{NAMES} names of {SHORTEST} to {LONGEST} bytes written"),
        &mut buffers(),
        |out| {
            let writes = out.as_chunks_mut().0.iter_mut().zip(names);
            writes
                .map(|(out, name)| by_library(&vaults.library, name, out))
                .sum()
        },
        |out| {
            let writes = out.as_chunks_mut().0.iter_mut().zip(names);
            writes
                .map(|(out, name)| by_second(&vaults.second, name, out))
                .sum()
        },
    );
}

/// Writes a name and gives the length of its full name.
fn by_library(
    vault: &skrapnefja::Vault,
    name: &[u8],
    [stored, full]: &mut [Vec<u8>; 2],
) -> Result<usize, skrapnefja::Refusal> {
    match vault.write_name(DIR_ID, name, stored, full)? {
        skrapnefja::WrittenName::Plain(_) => panic!("a long name is not shortened"),
        skrapnefja::WrittenName::Shortened { full, .. } => Ok(full),
    }
}

/// The same by the second program.
fn by_second(
    vault: &second::vault::Vault,
    name: &[u8],
    [stored, full]: &mut [Vec<u8>; 2],
) -> Result<usize, Refusal> {
    match vault.write_name(DIR_ID, name, stored, full)? {
        WrittenName::Plain(_) => panic!("a long name is not shortened"),
        WrittenName::Shortened { full, .. } => Ok(full),
    }
}

fn open(vaults: &Vaults, names: &[Vec<u8>]) {
    let texts: Vec<_> = names.iter().map(|name| texts(vaults, name)).collect();
    both(
        &format!("{NAMES} of these opened"),
        &mut vec![vec![0; LONGEST]; NAMES],
        |out| {
            let opens = out.iter_mut().zip(&texts);
            opens
                .map(|(out, [stored, full])| {
                    vaults.library.open_long_name(DIR_ID, stored, full, out)
                })
                .sum()
        },
        |out| {
            let opens = out.iter_mut().zip(&texts);
            opens
                .map(|(out, [stored, full])| {
                    vaults.second.open_long_name(DIR_ID, stored, full, out)
                })
                .sum()
        },
    );
}

/// The hash name and the full name.
fn texts(vaults: &Vaults, name: &[u8]) -> [Vec<u8>; 2] {
    let mut texts = [HASH_NAME, LONGEST_FULL_NAME].map(|len| vec![0; len]);
    let length = by_second(&vaults.second, name, &mut texts);
    texts[1].truncate(length.expect("nothing to refuse"));
    texts
}
