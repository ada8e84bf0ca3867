//! Readers, and reads through them.

use super::{answer, master_keys, open_file, with_room, write_file};
use crate::case::{Call, Case};
use crate::common::random::Random;
use crate::format::{combo_of, READER_KEYS};
use second::vault::Combo;

/// The call that makes a reader of the file of a random cleartext.
pub fn open_reader(random: &mut Random, combo: Combo, len: usize) -> Case {
    let inputs = open_file(random, combo, len).inputs;
    with_room(Call::OpenReader, random, inputs, &[], READER_KEYS)
}

/// A read of the file of a random cleartext through its reader.
pub fn reader_read(random: &mut Random, combo: Combo, len: usize, from: u64, count: u64) -> Case {
    let write = write_file(random, combo, len);
    let keys = reader_keys(&write.inputs[0], &write.inputs[2]);
    let inputs = vec![answer(&write), keys];
    let numbers = [from, count];
    with_room(Call::ReaderRead, random, inputs, &numbers, count as usize)
}

/// The keys of a reader, by the vault and the content key of its file.
pub fn reader_keys(vault: &[u8], content_key: &[u8]) -> Vec<u8> {
    let combo = combo_of(vault).expect("a vault");
    let mac = match combo {
        Combo::SivGcm => &[0; 32],
        Combo::SivCtrmac => master_keys(vault).1,
    };
    [content_key, &mac[..], &[combo.number()]].concat()
}
