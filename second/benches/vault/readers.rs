//! Readers of a file of 16 MiB, and ranges that are read through them.

use crate::common::readers::{open_reader, reader_read};
use crate::files::{RANGES, RANGE_LEN};
use crate::inputs::{places, vault_bytes, Vaults};
use crate::time::{both, in_turns, zeros};
use second::vault::{self, Combo, READER_KEYS_LEN};
use std::time::Duration;

const COUNT: u64 = RANGE_LEN as u64;
const READERS: usize = 1000;

pub fn run(combo: Combo, name: &str, vaults: &Vaults, file: &[u8]) {
    let vault = vault_bytes(combo);
    let mut keys = [0; READER_KEYS_LEN];
    made(&vault, file, &mut keys).expect("nothing to refuse");
    read(name, vaults, file, &keys);
    make(name, &vault, file);
}

/// Through one reader of each program, made before; and of the time that the
/// program takes for these ranges without it, what it takes so, in turns.
fn read(combo: &str, vaults: &Vaults, file: &[u8], keys: &[u8]) {
    let places = &places(RANGES, RANGE_LEN);
    let buffers = &mut vec![vec![0; RANGE_LEN]; RANGES];
    let (length, reader) = vaults.second.open_reader(file);
    length.expect("nothing to refuse");
    let library = |out: &mut [_]| each(places, out, |from, out| through(file, keys, from, out));
    let second = |out: &mut [_]| each(places, out, |from, out| reader.read(from, COUNT, out));
    let title = format!("{combo}: {RANGES} of these through a reader");
    both(&title, buffers, library, second);

    let title = format!("{combo}: of the time of ranges this takes");
    let of_library = in_turns(&title, buffers, zeros, library, |out| {
        each(places, out, |from, out| {
            vaults.library.read_range(file, from, COUNT, out)
        })
    });
    let of_second = in_turns(&title, buffers, zeros, second, |out| {
        each(places, out, |from, out| {
            vaults.second.read_range(file, from, COUNT, out)
        })
    });
    let [library, second] = [of_library, of_second].map(ratio);
    println!("{title:44} {library:12.5} {second:12.5}");
}

fn ratio([one, other]: [Duration; 2]) -> f64 {
    one.as_secs_f64() / other.as_secs_f64()
}

/// Reads at each place to a buffer of its own.
fn each<E>(
    places: &[u64],
    out: &mut [Vec<u8>],
    read: impl Fn(u64, &mut [u8]) -> Result<usize, E>,
) -> Result<usize, E> {
    let reads = out.iter_mut().zip(places);
    reads.map(|(out, &from)| read(from, out)).sum()
}

/// Reads through the library's reader.
fn through(file: &[u8], keys: &[u8], from: u64, out: &mut [u8]) -> Result<usize, u32> {
    let (mut length, mut at) = (0, 0);
    match reader_read(file, keys, from, COUNT, out, &mut length, &mut at) {
        0 => Ok(length as usize),
        row => Err(row),
    }
}

/// The keys go to the buffers.
fn make(combo: &str, vault: &[u8], file: &[u8]) {
    both(
        &format!("{combo}: {READERS} readers of it made"),
        &mut vec![vec![0; READER_KEYS_LEN]; READERS],
        |out| out.iter_mut().map(|keys| made(vault, file, keys)).sum(),
        |out| {
            let makings = out.iter_mut();
            makings
                .map(|keys| Ok(vault::open_reader(vault, file, keys)? as usize))
                .sum::<Result<_, vault::Refusal>>()
        },
    );
}

/// Makes a reader by the library, and gives the length of the cleartext.
fn made(vault: &[u8], file: &[u8], keys: &mut [u8]) -> Result<usize, u32> {
    let mut length = 0;
    match open_reader(vault, file, keys, &mut length) {
        0 => Ok(length as usize),
        row => Err(row),
    }
}
