//! Headers, chunks, files and ranges.

use super::sizes::number_of_chunk;
use super::{answer, master_keys, nonce, nonces, vault, with_room};
use crate::case::{Call, Case};
use crate::common::random::Random;
use crate::format::{combo_of, sizes};
use second::ctr_hmac::CtrHmac;
use second::gcm;
use second::vault::{Combo, Vault, CHUNK_LEN};

pub fn write_header(random: &mut Random, combo: Combo) -> Case {
    let inputs = vec![vault(random, combo), nonce(random, combo), random.bytes(32)];
    with_room(Call::WriteHeader, random, inputs, &[], sizes(combo).header)
}

/// The header has the reserved bytes of our writers, or any others.
pub fn open_header(random: &mut Random, combo: Combo) -> Case {
    let write = write_header(random, combo);
    let mut header = answer(&write);
    any_reserved(random, &write.inputs[0], &mut header);
    let inputs = vec![write.inputs[0].clone(), header];
    with_room(Call::OpenHeader, random, inputs, &[], 32)
}

/// Seals the header at the front again with these reserved bytes.
pub fn set_reserved(vault: &[u8], file: &mut [u8], reserved: [u8; 8]) {
    let combo = combo_of(vault).expect("a vault");
    let (enc, mac) = master_keys(vault);
    let header = &mut file[..sizes(combo).header];
    match combo {
        Combo::SivGcm => {
            let (nonce, sealed) = header.split_first_chunk_mut().expect("a nonce");
            let mut payload = gcm::open(enc, nonce, &[], sealed).expect("genuine");
            payload[..8].copy_from_slice(&reserved);
            sealed.copy_from_slice(&gcm::seal(enc, nonce, &[], &payload));
        }
        Combo::SivCtrmac => {
            let (nonce, rest) = header.split_first_chunk_mut().expect("a nonce");
            let (payload, tag) = rest.split_last_chunk_mut().expect("a tag");
            let cipher = CtrHmac::new(enc, mac);
            cipher.apply_keystream(nonce, 0, payload);
            payload[..8].copy_from_slice(&reserved);
            *tag = cipher.encrypt(nonce, &[], payload);
        }
    }
}

/// Random bytes, a small number as old writers put there, or none of these.
fn any_reserved(random: &mut Random, vault: &[u8], file: &mut [u8]) {
    let reserved = match random.below(4) {
        0 | 1 => random.word(),
        2 => random.word() >> random.below(64),
        _ => return,
    };
    set_reserved(vault, file, reserved.to_be_bytes());
}

pub fn write_chunk(random: &mut Random, combo: Combo, len: usize) -> Case {
    let inputs = vec![
        vault(random, combo),
        random.bytes(32),
        random.bytes(sizes(combo).nonce),
        nonce(random, combo),
        random.bytes(len),
    ];
    let (number, length) = (number_of_chunk(random), len + sizes(combo).overhead);
    with_room(Call::WriteChunk, random, inputs, &[number], length)
}

pub fn open_chunk(random: &mut Random, combo: Combo, len: usize) -> Case {
    let write = write_chunk(random, combo, len);
    let chunk = answer(&write);
    let inputs = [&write.inputs[..3], &[chunk]].concat();
    with_room(Call::OpenChunk, random, inputs, &write.numbers, len)
}

pub fn write_file(random: &mut Random, combo: Combo, len: usize) -> Case {
    let inputs = vec![
        vault(random, combo),
        nonce(random, combo),
        random.bytes(32),
        nonces(random, combo, len.div_ceil(CHUNK_LEN)),
        random.bytes(len),
    ];
    let length = sizes(combo).file(len);
    with_room(Call::WriteFile, random, inputs, &[], length)
}

/// The same for the header of a file.
pub fn open_file(random: &mut Random, combo: Combo, len: usize) -> Case {
    let write = write_file(random, combo, len);
    let mut open = open_written_file(random, &write);
    let [vault, file] = &mut open.inputs[..] else {
        panic!("not what opens a file");
    };
    any_reserved(random, vault, file);
    open
}

/// The call that opens what this one writes.
pub fn open_written_file(random: &mut Random, write: &Case) -> Case {
    let inputs = vec![write.inputs[0].clone(), answer(write)];
    let len = write.inputs[4].len();
    with_room(Call::OpenFile, random, inputs, &[], len)
}

pub fn read_range(random: &mut Random, combo: Combo, len: usize, from: u64, count: u64) -> Case {
    let inputs = open_file(random, combo, len).inputs;
    let numbers = [from, count];
    with_room(Call::ReadRange, random, inputs, &numbers, count as usize)
}

/// The length of the cleartext of a file to open, to read or to mend.
pub fn cleartext_len(case: &Case) -> usize {
    let combo = case.combo().expect("a vault or a reader");
    let any_key = [0; 32];
    let vault = Vault::new(&any_key, &any_key, combo, 220).expect("two keys");
    let length = vault.cleartext_length(case.file().len() as u64);
    length.expect("a right length") as usize
}
