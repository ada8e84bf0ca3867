//! Cases in which no row applies.

mod content;
mod json;
mod keys;
mod labels;
mod mends;
mod names;
mod nonces;
mod readers;
mod sizes;
mod vaults;

use crate::case::{Call, Case};
use crate::common::random::Random;
use crate::format::{self, longest_plain, LONGEST_CLEARTEXT};
use second::vault::Combo;

pub use content::*;
pub use json::*;
pub use keys::*;
pub use labels::*;
pub use mends::*;
pub use names::*;
pub use nonces::*;
pub use readers::*;
use sizes::{chunk_len, file_len, name_len};
pub use sizes::{or_outside, place, range, room};
pub use vaults::*;

pub fn case(call: Call, random: &mut Random, combo: Combo) -> Case {
    match call {
        Call::OpenLabel => open_label(random, combo),
        Call::MakeVault => make_vault(random, combo),
        Call::WriteHeader => write_header(random, combo),
        Call::OpenHeader => open_header(random, combo),
        Call::WriteChunk => {
            let len = chunk_len(random);
            write_chunk(random, combo, len)
        }
        Call::OpenChunk => {
            let len = chunk_len(random);
            open_chunk(random, combo, len)
        }
        Call::WriteFile | Call::OpenFile | Call::OpenReader => on_file(call, random, combo),
        Call::ReadRange | Call::ReaderRead | Call::Mend => on_range(call, random, combo),
        Call::WriteName | Call::OpenName | Call::OpenLongName => on_name(call, random, combo),
        Call::DirPath => dir_path(random, combo),
        Call::FileLength | Call::CleartextLength => on_length(call, random, combo),
        Call::WrapKey => wrap_key(random),
        Call::UnwrapKey => unwrap_key(random),
    }
}

fn on_file(call: Call, random: &mut Random, combo: Combo) -> Case {
    let len = file_len(random);
    match call {
        Call::OpenFile => open_file(random, combo, len),
        Call::OpenReader => open_reader(random, combo, len),
        _ => write_file(random, combo, len),
    }
}

fn on_range(call: Call, random: &mut Random, combo: Combo) -> Case {
    let len = file_len(random);
    let (from, count) = range(random, len);
    match call {
        Call::ReaderRead => reader_read(random, combo, len, from, count),
        Call::Mend => mend(random, combo, len, from, count as usize),
        _ => read_range(random, combo, len, from, count),
    }
}

fn on_name(call: Call, random: &mut Random, combo: Combo) -> Case {
    let threshold = threshold(random);
    let plain = longest_plain(threshold);
    match call {
        Call::OpenName => {
            let len = 1 + random.below(plain);
            open_name_at(random, combo, threshold, len)
        }
        Call::OpenLongName => {
            let len = name_len(random, plain + 1);
            open_long_name_at(random, combo, threshold, len)
        }
        _ => {
            let len = match random.below(3) {
                0 => plain - 1 + random.below(4),
                _ => name_len(random, 1),
            };
            write_name_at(random, combo, threshold, len)
        }
    }
}

fn on_length(call: Call, random: &mut Random, combo: Combo) -> Case {
    let cleartext = random.below(LONGEST_CLEARTEXT + 1);
    let length = match call {
        Call::FileLength => cleartext,
        _ => format::sizes(combo).file(cleartext),
    };
    let vault = vault(random, combo);
    with_length(call, &vault, length as u64)
}

/// A call on a length.
pub fn with_length(call: Call, vault: &[u8], length: u64) -> Case {
    Case {
        call,
        inputs: vec![vault.to_vec()],
        numbers: vec![length],
        buffers: vec![],
    }
}

/// What the call writes to its first buffer, by `second`.
pub fn answer(case: &Case) -> Vec<u8> {
    let mut end = crate::predict::end(case);
    assert_eq!(end.row, 0);
    end.buffers[0].truncate(end.length as usize);
    end.buffers.swap_remove(0)
}

fn with_room(
    call: Call,
    random: &mut Random,
    inputs: Vec<Vec<u8>>,
    numbers: &[u64],
    len: usize,
) -> Case {
    Case {
        call,
        inputs,
        numbers: numbers.to_vec(),
        buffers: vec![buffer(random, len)],
    }
}

/// A buffer of this length or some bytes more.
pub fn buffer(random: &mut Random, len: usize) -> Vec<u8> {
    let spare = random.below(2) * random.below(40);
    random.bytes(len + spare)
}
