//! What a call must do, according to `second`.

use crate::case::{Call, Case, End};
use second::vault::{self, Reader, Refusal, Vault, WrittenName};

pub fn end(case: &Case) -> End {
    let mut buffers = case.buffers.clone();
    let answer = run(case, &mut buffers);
    end_of(case, answer, buffers)
}

/// The end of a call that gave this answer.
pub fn end_of(case: &Case, answer: Answer, buffers: Vec<Vec<u8>>) -> End {
    let [mut length, mut other, mut at] = case.old_results();
    let row = match answer {
        Ok((new_length, new_other)) => {
            length = new_length;
            other = new_other.unwrap_or(other);
            0
        }
        Err(refusal) => {
            at = place(refusal).unwrap_or(at);
            refusal.row()
        }
    };
    End {
        row,
        length,
        other,
        at,
        buffers,
    }
}

/// The number that a refusal has beside its row.
fn place(refusal: Refusal) -> Option<u64> {
    match refusal {
        Refusal::Chunk(number) => Some(number),
        Refusal::Text(place) => Some(place as u64),
        Refusal::Label(place) => place.map(|place| place as u64),
        _ => None,
    }
}

/// The length, and from a call that sets it the other number.
pub type Answer = Result<(u64, Option<u64>), Refusal>;

fn run(case: &Case, buffers: &mut [Vec<u8>]) -> Answer {
    let length = match (case.call, &case.inputs[..], &case.numbers[..], buffers) {
        (Call::OpenLabel, [raw_key, label], [], []) => {
            let (combo, threshold) = vault::open_label(raw_key, label)?;
            return Ok((combo.number().into(), Some(threshold.into())));
        }
        (Call::MakeVault, [enc, mac], [_, _], [out]) => {
            let [combo, threshold] = case.vault_numbers();
            vault::make_vault(enc, mac, combo, threshold, out)
        }
        (Call::OpenReader, [vault, file], [], [keys]) => {
            return Ok((vault::open_reader(vault, file, keys)?, None));
        }
        (Call::ReaderRead, [file, keys], &[from, count], [out]) => {
            Reader::from_bytes(file, keys)?.read(from, count, out)
        }
        (Call::WrapKey, [kek, key], [], [out]) => vault::wrap_key(kek, key, out),
        (Call::UnwrapKey, [kek, wrapped], [], [out]) => vault::unwrap_key(kek, wrapped, out),
        (call, [vault, inputs @ ..], numbers, buffers) => {
            let vault = if call.is_by_threshold() {
                Vault::for_names(vault)?
            } else {
                Vault::from_bytes(vault)?
            };
            return match call {
                Call::FileLength => Ok((vault.file_length(numbers[0])?, None)),
                Call::CleartextLength => Ok((vault.cleartext_length(numbers[0])?, None)),
                _ if call.is_on_names() => names(&vault, call, inputs, buffers),
                _ => content(&vault, call, inputs, numbers, buffers),
            };
        }
        _ => panic!("not what {:?} takes", case.call),
    };
    Ok((length? as u64, None))
}

fn content(
    vault: &Vault,
    call: Call,
    inputs: &[Vec<u8>],
    numbers: &[u64],
    buffers: &mut [Vec<u8>],
) -> Answer {
    let length = match (call, inputs, numbers, buffers) {
        (Call::WriteHeader, [nonce, content_key], [], [out]) => {
            vault.write_header(nonce, content_key, out)
        }
        (Call::OpenHeader, [header], [], [out]) => {
            let (length, reserved) = vault.open_header(header, out)?;
            return Ok((length as u64, Some(u64::from_be_bytes(reserved))));
        }
        (Call::WriteChunk, [content_key, header_nonce, nonce, cleartext], &[number], [out]) => {
            vault.write_chunk(content_key, header_nonce, number, nonce, cleartext, out)
        }
        (Call::OpenChunk, [content_key, header_nonce, chunk], &[number], [out]) => {
            vault.open_chunk(content_key, header_nonce, number, chunk, out)
        }
        (Call::WriteFile, [nonce, content_key, nonces, cleartext], [], [out]) => {
            vault.write_file(nonce, content_key, nonces, cleartext, out)
        }
        (Call::OpenFile, [file], [], [out]) => vault.open_file(file, out),
        (Call::ReadRange, [file], &[from, count], [out]) => {
            vault.read_range(file, from, count, out)
        }
        (Call::Mend, [new, nonces], &[from], [file]) => vault.mend(file, from, new, nonces),
        _ => panic!("not what {call:?} takes"),
    };
    Ok((length? as u64, None))
}

fn names(vault: &Vault, call: Call, inputs: &[Vec<u8>], buffers: &mut [Vec<u8>]) -> Answer {
    let length = match (call, inputs, buffers) {
        (Call::WriteName, [dir_id, name], [stored, full]) => {
            let lengths = match vault.write_name(dir_id, name, stored, full)? {
                WrittenName::Plain(stored) => (stored, 0),
                WrittenName::Shortened { stored, full } => (stored, full),
            };
            return Ok((lengths.0 as u64, Some(lengths.1 as u64)));
        }
        (Call::OpenName, [dir_id, stored], [out]) => vault.open_name(dir_id, stored, out),
        (Call::OpenLongName, [dir_id, stored, full], [out]) => {
            vault.open_long_name(dir_id, stored, full, out)
        }
        (Call::DirPath, [dir_id], [out]) => vault.dir_path(dir_id, out),
        _ => panic!("not what {call:?} takes"),
    };
    Ok((length? as u64, None))
}
