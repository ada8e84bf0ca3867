//! Signatures, and the keys that they are under.

use super::{segments, usual, with};
use crate::common::labels::{self, HEADER, PAYLOAD};
use crate::compare::Compare;
use crate::fault::resize;
use crate::format::RAW_KEY;
use crate::make;
use crate::part::{Part, Run::Once};
use second::{base64url, hmac};

pub const PARTS: &[Part] = &[
    ("labels: signatures of every length", Once(lengths)),
    ("labels: every bit of signature and key", Once(bits)),
    ("labels: signatures under other keys", Once(other_keys)),
    ("labels: signatures of other bytes", Once(other_bytes)),
    ("labels: keys of every length", Once(key_lengths)),
];

/// The first bytes of the right one, and the right one with more behind it.
fn lengths(compare: &mut Compare) {
    let case = usual(compare);
    let [header, payload, _] = segments(&case);
    let signed = format!("{header}.{payload}");
    let right = hmac::mac(&case.inputs[0], signed.as_bytes());
    for more in [[0; 64], [0xff; 64], compare.random.array()] {
        let long = [&right[..], &more].concat();
        for len in 0..=96 {
            let label = make::with_signature(&signed, &long[..len]);
            let row = with(compare, &case, label);
            assert_eq!(row, if len == 32 { 0 } else { 15 });
        }
    }
    for other in [
        vec![0; 32],
        vec![0xff; 32],
        right.iter().rev().copied().collect(),
    ] {
        let label = make::with_signature(&signed, &other);
        assert_eq!(with(compare, &case, label), 15);
    }
    // As hexadecimal digits, which are base64url too.
    let digits: String = right.iter().map(|byte| format!("{byte:02x}")).collect();
    assert_eq!(with(compare, &case, format!("{signed}.{digits}")), 15);
}

fn bits(compare: &mut Compare) {
    let case = usual(compare);
    let [header, payload, signature] = segments(&case);
    let signature = base64url::decode(signature.as_bytes(), false).expect("base64url");
    for bit in 0..256 {
        let mut other = signature.clone();
        other[bit / 8] ^= 1 << (bit % 8);
        let label = make::with_signature(&format!("{header}.{payload}"), &other);
        assert_eq!(with(compare, &case, label), 15);
    }
    for bit in 0..8 * RAW_KEY {
        let mut other = case.clone();
        other.inputs[0][bit / 8] ^= 1 << (bit % 8);
        assert_eq!(compare.row(&other), 15);
    }
}

/// Under other keys.
fn other_keys(compare: &mut Compare) {
    for _ in 0..20 {
        let case = usual(compare);
        let [header, payload, _] = segments(&case);
        let signed = format!("{header}.{payload}");
        let key = &case.inputs[0];
        let (enc, mac) = key.split_at(32);
        for other in [
            enc,
            mac,
            &[mac, enc].concat(),
            &[key, &[0][..]].concat(),
            &[],
        ] {
            let signature = hmac::mac(other, signed.as_bytes());
            let label = make::with_signature(&signed, &signature);
            assert_eq!(with(compare, &case, label), 15);
        }
        let other = usual(compare);
        assert_eq!(with(compare, &case, other.inputs[1].clone()), 15);
    }
}

/// Of other bytes, under the right key: a signature is of the segments as they
/// are, and of the dot between them.
fn other_bytes(compare: &mut Compare) {
    let case = usual(compare);
    let [header, payload, _] = segments(&case);
    let signed = format!("{header}.{payload}");
    let spaced = base64url::encode(format!("{PAYLOAD} ").as_bytes(), false);
    for other in [
        "",
        &header,
        &payload,
        &format!("{payload}.{header}"),
        &format!("{header}{payload}"),
        &format!("{signed}."),
        &format!(".{signed}"),
        &format!("{HEADER}.{PAYLOAD}"),
        &format!("{HEADER}{PAYLOAD}"),
        &format!("{header}.{spaced}"),
    ] {
        let signature = hmac::mac(&case.inputs[0], other.as_bytes());
        let label = make::with_signature(&signed, &signature);
        assert_eq!(with(compare, &case, label), 15);
    }
}

/// Row 1 comes before all others. A key that is filled up with zeros would be
/// the same to HMAC.
fn key_lengths(compare: &mut Compare) {
    let case = usual(compare);
    for len in (0..=200).chain([64 * 256, 65_536 + 64]) {
        for label in [&case.inputs[1][..], b"", b"..", &[b'.'; 5000], &[0xff; 300]] {
            let mut sized = make::open_label_of(&case.inputs[0], label.to_vec());
            resize(&mut sized.inputs[0], len, &mut compare.random);
            let row = compare.row(&sized);
            assert_eq!(row == 1, len != RAW_KEY);
            assert_eq!(
                row == 0,
                len == RAW_KEY && label.len() == case.inputs[1].len()
            );
        }
    }
    for zeros in 1..=64 {
        let mut key = case.inputs[0].clone();
        key[RAW_KEY - zeros..].fill(0);
        let label = labels::label(&key, [HEADER.as_bytes(), PAYLOAD.as_bytes()]);
        assert_eq!(compare.row(&make::open_label_of(&key, label.clone())), 0);
        key.truncate(RAW_KEY - zeros);
        assert_eq!(compare.row(&make::open_label_of(&key, label)), 1);
    }
}
