//! Calls of the static library.

use crate::case::{Call, Case, End};
use crate::common::readers::{open_reader, reader_read};
use skrapnefja::call;

/// Bytes before and after every slice that no call may change. The number is
/// odd, so that the slices are at odd addresses.
const GUARD: [u8; 17] = *b"outside of buffer";

/// The same for results.
const GUARD_WORD: u64 = 0x6f75_7473_6964_6521;
const GUARD_HALF: u32 = 0x6f75_7421;

/// Makes the call on copies with guards around them.
pub fn end(case: &Case) -> End {
    let mut inputs: Vec<_> = case.inputs.iter().map(|slice| guarded(slice)).collect();
    let mut buffers: Vec<_> = case.buffers.iter().map(|slice| guarded(slice)).collect();
    let mut results = case.old_results().map(|old| [GUARD_WORD, old, GUARD_WORD]);
    let [length, other, at] = &mut results;
    let row = run(
        case,
        Lent {
            inputs: &inside(&mut inputs),
            buffers: &mut inside(&mut buffers),
            length: &mut length[1],
            other: &mut other[1],
            at: &mut at[1],
        },
    );
    let [length, other, at] = results.map(|[before, result, after]| {
        assert_eq!([before, after], [GUARD_WORD; 2]);
        result
    });
    for (later, slice) in inputs.iter().zip(&case.inputs) {
        assert!(inside_of(later) == &slice[..], "changed an input");
    }
    End {
        row,
        length,
        other,
        at,
        buffers: buffers
            .iter()
            .map(|slice| inside_of(slice).to_vec())
            .collect(),
    }
}

fn guarded(slice: &[u8]) -> Vec<u8> {
    [&GUARD, slice, &GUARD].concat()
}

/// The slices between the guards.
fn inside(guarded: &mut [Vec<u8>]) -> Vec<&mut [u8]> {
    let inside = |slice| {
        let slice: &mut Vec<u8> = slice;
        let end = slice.len() - GUARD.len();
        &mut slice[GUARD.len()..end]
    };
    guarded.iter_mut().map(inside).collect()
}

/// The slice between the guards, which must be as they were.
fn inside_of(guarded: &[u8]) -> &[u8] {
    let inside = guarded
        .strip_prefix(&GUARD)
        .expect("changed before a slice");
    inside.strip_suffix(&GUARD).expect("changed after a slice")
}

/// What a call is lent beside numbers: no two of these overlap.
struct Lent<'a, 'b> {
    inputs: &'a [&'b mut [u8]],
    buffers: &'a mut [&'b mut [u8]],
    length: &'a mut u64,
    other: &'a mut u64,
    at: &'a mut u64,
}

fn run(case: &Case, lent: Lent) -> u32 {
    match case.call {
        call if call.is_on_names() => names(call, lent),
        Call::OpenLabel => label(lent),
        Call::MakeVault | Call::WrapKey | Call::UnwrapKey => keys(case, lent),
        Call::FileLength | Call::CleartextLength => lengths(case, lent),
        Call::OpenReader | Call::ReaderRead => readers(case, lent),
        _ => content(case, lent),
    }
}

fn content(case: &Case, lent: Lent) -> u32 {
    let (length, other, at) = (lent.length, lent.other, lent.at);
    // SAFETY: each pointer is that of a slice, with its length, or of a number.
    unsafe {
        match (case.call, lent.inputs, &case.numbers[..], lent.buffers) {
            (Call::WriteHeader, [vault, nonce, content_key], [], [out]) => {
                call!(skrapnefja_write_header:
                    in vault, in nonce, in content_key, out out, val length,)
            }
            (Call::OpenHeader, [vault, header], [], [out]) => {
                call!(skrapnefja_open_header:
                    in vault, in header, out out, val length, val other,)
            }
            (Call::WriteChunk, [vault, key, header_nonce, nonce, cleartext], &[number], [out]) => {
                call!(skrapnefja_write_chunk:
                    in vault, in key, in header_nonce, val number, in nonce, in cleartext,
                    out out, val length,)
            }
            (Call::OpenChunk, [vault, key, header_nonce, chunk], &[number], [out]) => {
                call!(skrapnefja_open_chunk:
                    in vault, in key, in header_nonce, val number, in chunk,
                    out out, val length, val at,)
            }
            (Call::WriteFile, [vault, header_nonce, key, nonces, cleartext], [], [out]) => {
                call!(skrapnefja_write_file:
                    in vault, in header_nonce, in key, in nonces, in cleartext,
                    out out, val length,)
            }
            (Call::OpenFile, [vault, file], [], [out]) => {
                call!(skrapnefja_open_file: in vault, in file, out out, val length, val at,)
            }
            (Call::ReadRange, [vault, file], &[from, count], [out]) => {
                call!(skrapnefja_read_range:
                    in vault, in file, val from, val count, out out, val length, val at,)
            }
            (Call::Mend, [vault, new, nonces], &[from], [file]) => {
                call!(skrapnefja_mend:
                    in vault, out file, val from, in new, in nonces, val length, val at,)
            }
            _ => panic!("not what {:?} takes", case.call),
        }
    }
}

fn readers(case: &Case, lent: Lent) -> u32 {
    let (length, at) = (lent.length, lent.at);
    match (case.call, lent.inputs, &case.numbers[..], lent.buffers) {
        (Call::OpenReader, [vault, file], [], [keys]) => open_reader(vault, file, keys, length),
        (Call::ReaderRead, [file, keys], &[from, count], [out]) => {
            reader_read(file, keys, from, count, out, length, at)
        }
        _ => panic!("not what {:?} takes", case.call),
    }
}

fn names(call: Call, lent: Lent) -> u32 {
    let (length, other, at) = (lent.length, lent.other, lent.at);
    // SAFETY: as for content.
    unsafe {
        match (call, lent.inputs, lent.buffers) {
            (Call::WriteName, [vault, dir_id, name], [stored, full]) => {
                call!(skrapnefja_write_name:
                    in vault, in dir_id, in name, out stored, out full, val length, val other,)
            }
            (Call::OpenName, [vault, dir_id, stored], [out]) => {
                call!(skrapnefja_open_name:
                    in vault, in dir_id, in stored, out out, val length, val at,)
            }
            (Call::OpenLongName, [vault, dir_id, stored, full], [out]) => {
                call!(skrapnefja_open_long_name:
                    in vault, in dir_id, in stored, in full, out out, val length, val at,)
            }
            (Call::DirPath, [vault, dir_id], [out]) => {
                call!(skrapnefja_dir_path: in vault, in dir_id, out out, val length,)
            }
            _ => panic!("not what {call:?} takes"),
        }
    }
}

fn lengths(case: &Case, lent: Lent) -> u32 {
    let length = lent.length;
    // SAFETY: as for content.
    unsafe {
        match (case.call, lent.inputs, &case.numbers[..], lent.buffers) {
            (Call::FileLength, [vault], &[number], []) => {
                call!(skrapnefja_file_length: in vault, val number, val length,)
            }
            (Call::CleartextLength, [vault], &[number], []) => {
                call!(skrapnefja_cleartext_length: in vault, val number, val length,)
            }
            _ => panic!("not what {:?} takes", case.call),
        }
    }
}

fn keys(case: &Case, lent: Lent) -> u32 {
    let length = lent.length;
    // SAFETY: as for content.
    unsafe {
        match (case.call, lent.inputs, &case.numbers[..], lent.buffers) {
            (Call::MakeVault, [enc, mac], [_, _], [out]) => {
                let [combo, threshold] = case.vault_numbers();
                call!(skrapnefja_make_vault:
                    in enc, in mac, val combo, val threshold, out out, val length,)
            }
            (Call::WrapKey, [kek, key], [], [out]) => {
                call!(skrapnefja_wrap_key: in kek, in key, out out, val length,)
            }
            (Call::UnwrapKey, [kek, wrapped], [], [out]) => {
                call!(skrapnefja_unwrap_key: in kek, in wrapped, out out, val length,)
            }
            _ => panic!("not what {:?} takes", case.call),
        }
    }
}

/// Its combo and its threshold have 32 bits each.
fn label(lent: Lent) -> u32 {
    let [raw_key, label] = lent.inputs else {
        panic!("not what a label is opened with");
    };
    let [combo, threshold] = [*lent.length, *lent.other].map(|old| old as u32);
    let at = lent.at;
    let mut results = [GUARD_HALF, combo, GUARD_HALF, threshold, GUARD_HALF];
    let [before, combo, between, threshold, after] = &mut results;
    // SAFETY: as for content.
    let row = unsafe {
        call!(skrapnefja_open_label:
            in raw_key, in label, val combo, val threshold, val at,)
    };
    assert_eq!([*before, *between, *after], [GUARD_HALF; 3]);
    *lent.length = (*combo).into();
    *lent.other = (*threshold).into();
    row
}
