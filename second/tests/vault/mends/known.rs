//! Values that were worked out in another way. Their inputs all differ.

use super::{opening, Log};
use crate::case::{Call, Case};
use crate::common::fields::{bytes, lines};
use crate::compare::Compare;
use crate::format::{self, sizes};
use crate::make::vault_of;
use crate::part::{Part, Run::Each};
use second::sha256;
use second::vault::Combo;

pub const PARTS: &[Part] = &[("mends: values of distinct inputs", Each(values))];

fn values(compare: &mut Compare, combo: Combo) {
    let log = log(combo);
    let mut mended = vec![];
    let mut values = 0;
    for fields in lines(include_str!("../../../vectors/mended.txt")) {
        if fields[1] != format::name(combo) {
            continue;
        }
        match fields[..] {
            ["file", _, header, digest] => written(compare, &log, header, digest),
            ["mended", _, from, new, nonces, digest] => {
                let from = number(from);
                mended = mend(compare, &log, from, [bytes(new), bytes(nonces)], digest);
            }
            ["chunk", _, number_of_it, ref parts @ ..] => {
                chunk(combo, &mended, number(number_of_it), parts);
            }
            _ => panic!("not a value: {fields:?}"),
        }
        values += 1;
    }
    assert_eq!(values, 5);
}

/// Of 65,636 bytes.
fn log(combo: Combo) -> Log {
    let nonce = |first: u8| (first..).take(sizes(combo).nonce).collect::<Vec<_>>();
    let [enc, mac, content_key] = [0x00, 0x20, 0x40].map(|first| Vec::from_iter(first..first + 32));
    let cleartext: Vec<_> = (0..65_636).map(|i| ((i % 251) ^ (i / 251)) as u8).collect();
    let write = Case {
        call: Call::WriteFile,
        inputs: vec![
            vault_of(&enc, &mac, combo),
            nonce(0xa0),
            content_key,
            [0xb0, 0xc0, 0xd0].map(nonce).concat(),
            cleartext,
        ],
        numbers: vec![],
        buffers: vec![vec![0xa5; sizes(combo).file(65_636)]],
    };
    Log::of(combo, write)
}

/// Both programs write the file.
fn written(compare: &mut Compare, log: &Log, header: &str, digest: &str) {
    let end = compare.end(&log.write);
    assert_eq!(end.row, 0);
    assert!(end.buffers[0].starts_with(&bytes(header)));
    assert_eq!(sha256::digest(&end.buffers[0]).to_vec(), bytes(digest));
}

/// Both programs mend it with these bytes and nonces, and open it then. Gives the
/// file.
fn mend(
    compare: &mut Compare,
    log: &Log,
    from: usize,
    [new, nonces]: [Vec<u8>; 2],
    digest: &str,
) -> Vec<u8> {
    let mut cleartext = log.cleartext().to_vec();
    cleartext[from..from + new.len()].copy_from_slice(&new);
    let mut end = compare.end(&Case {
        call: Call::Mend,
        inputs: vec![log.vault().to_vec(), new, nonces],
        numbers: vec![from as u64],
        buffers: vec![log.file.clone()],
    });
    assert_eq!((end.row, end.length), (0, 40));
    let mended = end.buffers.swap_remove(0);
    assert_eq!(sha256::digest(&mended).to_vec(), bytes(digest));

    let mut open = opening(log, Call::OpenFile, vec![]);
    open.inputs[1].clone_from(&mended);
    let end = compare.end(&open);
    assert_eq!(end.row, 0);
    assert!(end.buffers[0] == cleartext, "another cleartext");
    mended
}

/// The chunk has this nonce, these first bytes of its ciphertext, this tag and
/// this digest.
fn chunk(combo: Combo, file: &[u8], number: usize, parts: &[&str]) {
    let sizes = sizes(combo);
    let chunk = file[sizes.header..].chunks(sizes.chunk).nth(number);
    let chunk = chunk.expect("a chunk");
    let [nonce, ciphertext, tag, digest] = parts else {
        panic!("not what a chunk is told by: {parts:?}");
    };
    let [nonce, ciphertext, tag] = [nonce, ciphertext, tag].map(|part| bytes(part));
    assert!(chunk.starts_with(&[nonce, ciphertext].concat()));
    assert!(chunk.ends_with(&tag));
    assert_eq!(sha256::digest(chunk).to_vec(), bytes(digest));
}

fn number(field: &str) -> usize {
    usize::from_str_radix(field, 16).expect("a number")
}
