//! Names and paths.

use super::{buffer, master_keys, vault, vault_at, with_room};
use crate::case::{Call, Case};
use crate::common::random::Random;
use crate::common::text::random_text;
use crate::format::{full_len, LONGEST_FULL_NAME, THRESHOLDS};
use second::vault::{Combo, Vault, WrittenName};
use second::{base64url, sha1, siv};

/// The largest threshold, where no other is asked for.
const LARGEST: u8 = *THRESHOLDS.end();

pub fn write_name(random: &mut Random, combo: Combo, len: usize) -> Case {
    write_name_at(random, combo, LARGEST, len)
}

/// In a vault with this threshold.
pub fn write_name_at(random: &mut Random, combo: Combo, threshold: u8, len: usize) -> Case {
    let inputs = vec![
        vault_at(random, combo, threshold),
        dir_id(random),
        random_text(random, len),
    ];
    let (stored, full) = match full_len(len) {
        full if full <= threshold.into() => (full, 0),
        full => (32, full),
    };
    let mut case = with_room(Call::WriteName, random, inputs, &[], stored);
    case.buffers.push(buffer(random, full));
    case
}

pub fn open_name(random: &mut Random, combo: Combo, len: usize) -> Case {
    let write = write_name(random, combo, len);
    open_written(random, &write)
}

/// The case of [`open_name`] or [`open_long_name`], by the name's length.
pub fn open_name_at(random: &mut Random, combo: Combo, threshold: u8, len: usize) -> Case {
    let write = write_name_at(random, combo, threshold, len);
    open_written(random, &write)
}

/// The call that opens the full name of these bytes, in the vault and directory
/// of another call; `second` sealed them, and they need not be text.
pub fn open_sealed(random: &mut Random, other: &Case, name: &[u8]) -> Case {
    let (enc, mac) = master_keys(&other.inputs[0]);
    let full = full_name(&siv::seal(mac, enc, &[&other.inputs[1]], name));
    let (call, texts) = if full.len() <= other.threshold().into() {
        (Call::OpenName, vec![full])
    } else {
        (Call::OpenLongName, vec![hash_name(&full), full])
    };
    let inputs = [&other.inputs[..2], &texts].concat();
    with_room(call, random, inputs, &[], name.len())
}

/// The bytes that an opener's case has sealed in its (full) name.
pub fn sealed_in(case: &Case) -> Vec<u8> {
    let (enc, mac) = master_keys(&case.inputs[0]);
    let full = case.inputs.last().expect("a text");
    let sealed = base64url::decode(&full[..full.len() - 4], true).expect("a text");
    siv::open(mac, enc, &[&case.inputs[1]], &sealed).expect("its own directory")
}

/// The call that opens, in its directory, what this one writes.
pub fn open_written(random: &mut Random, write: &Case) -> Case {
    let mut end = crate::predict::end(write);
    assert_eq!(end.row, 0);
    end.buffers[0].truncate(end.length as usize);
    end.buffers[1].truncate(end.other as usize);
    let (call, texts) = match end.other {
        0 => (Call::OpenName, 1),
        _ => (Call::OpenLongName, 2),
    };
    let inputs = [&write.inputs[..2], &end.buffers[..texts]].concat();
    with_room(call, random, inputs, &[], write.inputs[2].len())
}

/// The name can be one that is stored as it is: then row 11 applies.
pub fn open_long_name(random: &mut Random, combo: Combo, len: usize) -> Case {
    open_long_name_at(random, combo, LARGEST, len)
}

/// In a vault with this threshold.
pub fn open_long_name_at(random: &mut Random, combo: Combo, threshold: u8, len: usize) -> Case {
    let write = write_name_at(random, combo, threshold, len);
    let (mut stored, mut full) = (vec![0; 220], vec![0; LONGEST_FULL_NAME]);
    let [vault, id, name] = &write.inputs[..] else {
        panic!("not what a name is written of");
    };
    let vault = Vault::from_bytes(vault).expect("a vault");
    match vault.write_name(id, name, &mut stored, &mut full) {
        Ok(WrittenName::Plain(length)) => {
            full = stored[..length].to_vec();
            stored = hash_name(&full);
        }
        Ok(WrittenName::Shortened { full: length, .. }) => {
            full.truncate(length);
            stored.truncate(32);
        }
        Err(refusal) => panic!("{refusal:?}"),
    }
    let inputs = [&write.inputs[..2], &[stored, full]].concat();
    with_room(Call::OpenLongName, random, inputs, &[], len)
}

pub fn dir_path(random: &mut Random, combo: Combo) -> Case {
    let inputs = vec![vault(random, combo), dir_id(random)];
    with_room(Call::DirPath, random, inputs, &[], 36)
}

/// An opener's case with this as its (full) name, and with the hash of it.
pub fn with_text(case: &Case, text: Vec<u8>) -> Case {
    let mut case = case.clone();
    if case.call == Call::OpenLongName {
        case.inputs[2] = hash_name(&text);
    }
    *case.inputs.last_mut().expect("a text") = text;
    case
}

/// The (full) name of an opener's case.
pub fn text_of(case: &Case) -> Vec<u8> {
    case.inputs.last().expect("a text").clone()
}

/// The name that is stored in place of this one.
pub fn hash_name(full: &[u8]) -> Vec<u8> {
    let hash = sha1::digest(full);
    (base64url::encode(&hash, true) + ".c9s").into_bytes()
}

/// The text of a sealed name.
pub fn full_name(sealed: &[u8]) -> Vec<u8> {
    (base64url::encode(sealed, true) + ".c9r").into_bytes()
}

pub fn dir_id(random: &mut Random) -> Vec<u8> {
    let len = random.below(37);
    (0..len).map(|_| random.below(128) as u8).collect()
}
