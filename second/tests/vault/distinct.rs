//! Values whose inputs all differ: a program that takes one key, nonce or
//! number for another does not give them.

use crate::case::{Call, Case};
use crate::common::fields::{bytes, lines, text};
use crate::compare::Compare;
use crate::format::sizes;
use crate::known;
use crate::make::vault_of;
use crate::part::{Part, Run::Once};
use second::vault::Combo::{self, SivCtrmac, SivGcm};

pub const PARTS: &[Part] = &[("values of distinct inputs", Once(values))];

/// Values that no call of the vault gives: they run with the other vectors.
const HASHES: [&str; 3] = ["hmac_32", "hmac_64", "sha256"];

/// The other kinds of values, with their numbers.
const KINDS: [(&str, usize); 11] = [
    ("header", 1),
    ("reserved", 1),
    ("chunk", 2),
    ("ctrmac_header", 1),
    ("ctrmac_reserved", 1),
    ("ctrmac_chunk", 4),
    ("name", 10),
    ("sealed", 3),
    ("path", 2),
    ("wrapped", 1),
    ("label", 1),
];

fn values(compare: &mut Compare) {
    let mut kinds = vec![];
    for fields in lines(include_str!("../../vectors/distinct.txt")) {
        value(compare, &fields);
        kinds.push(fields[0]);
    }
    for (kind, number) in KINDS {
        let found = kinds.iter().filter(|&&other| other == kind).count();
        assert_eq!(found, number, "{kind}");
    }
}

fn value(compare: &mut Compare, fields: &[&str]) {
    match *fields {
        ["header", header] => whole_header(compare, SivGcm, header),
        ["ctrmac_header", header] => whole_header(compare, SivCtrmac, header),
        ["reserved", reserved, header] => reserved_bytes(compare, SivGcm, reserved, header),
        ["ctrmac_reserved", reserved, header] => {
            reserved_bytes(compare, SivCtrmac, reserved, header);
        }
        ["chunk", number, cleartext, stored] => {
            let nonce = (0xb0..0xbc).collect();
            chunk(compare, SivGcm, number, nonce, [cleartext, stored]);
        }
        ["ctrmac_chunk", number, nonce, cleartext, stored] => {
            chunk(
                compare,
                SivCtrmac,
                number,
                bytes(nonce),
                [cleartext, stored],
            );
        }
        ["wrapped", wrapped] => {
            known::wrapped_key(compare, [enc(), content_key()], bytes(wrapped));
        }
        ["label", label] => {
            let inputs = [(0x00..0x40).collect(), label.as_bytes().to_vec()];
            known::label(compare, inputs, SivGcm, 220);
        }
        [kind, _] if HASHES.contains(&kind) => {}
        _ => {
            for combo in Combo::ALL {
                name_or_path(compare, combo, fields);
            }
        }
    }
}

/// The values of names and paths, which are the same in either combo.
fn name_or_path(compare: &mut Compare, combo: Combo, fields: &[&str]) {
    match *fields {
        ["name", id, name, ref texts @ ..] => {
            known::name(compare, [vault(combo), directory(id), bytes(name)], texts);
        }
        ["sealed", id, sealed, ref texts @ ..] => {
            let inputs = [vault(combo), directory(id), bytes(sealed)];
            known::not_text(compare, inputs, texts);
        }
        ["path", id, path] => known::path(compare, [vault(combo), directory(id)], path),
        _ => panic!("not a value: {fields:?}"),
    }
}

fn whole_header(compare: &mut Compare, combo: Combo, header: &str) {
    let inputs = [vault(combo), header_nonce(combo), content_key()];
    known::header(compare, inputs, bytes(header));
}

/// The reserved bytes are not those that our writers write; they are returned,
/// the first as the highest byte of the number.
fn reserved_bytes(compare: &mut Compare, combo: Combo, reserved: &str, header: &str) {
    let end = compare.end(&Case {
        call: Call::OpenHeader,
        inputs: vec![vault(combo), bytes(header)],
        numbers: vec![],
        buffers: vec![vec![0xa5; 32]],
    });
    assert_eq!(
        (end.row, end.length, end.other),
        (0, 32, 0x8182838485868788)
    );
    assert_eq!(end.other.to_be_bytes().to_vec(), bytes(reserved));
    assert_eq!(end.buffers, [content_key()]);
}

/// With this nonce, the cleartext and its stored form.
fn chunk(compare: &mut Compare, combo: Combo, number: &str, nonce: Vec<u8>, forms: [&str; 2]) {
    let number = u64::from_str_radix(number, 16).expect("a number");
    let [cleartext, stored] = forms.map(bytes);
    let inputs = [
        vault(combo),
        content_key(),
        header_nonce(combo),
        nonce,
        cleartext,
    ];
    known::chunk(compare, inputs, number, stored);
}

fn vault(combo: Combo) -> Vec<u8> {
    let mac: Vec<_> = (0x20..0x40).collect();
    vault_of(&enc(), &mac, combo)
}

fn enc() -> Vec<u8> {
    (0x00..0x20).collect()
}

fn content_key() -> Vec<u8> {
    (0x40..0x60).collect()
}

fn header_nonce(combo: Combo) -> Vec<u8> {
    (0xa0..).take(sizes(combo).nonce).collect()
}

fn directory(id: &str) -> Vec<u8> {
    text(id).as_bytes().to_vec()
}
