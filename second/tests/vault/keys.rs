//! Wrapped keys.

use crate::case::Case;
use crate::common::fields::{bytes, lines};
use crate::compare::Compare;
use crate::fault::resize;
use crate::format::WRAPPED_KEY;
use crate::part::{Part, Run::Once};
use crate::{known, make};
use second::key_wrap::INITIAL_VALUE;

pub const PARTS: &[Part] = &[
    ("keys: every bit", Once(bits)),
    ("keys: every size", Once(sizes)),
    ("keys: wrapped and unwrapped", Once(there_and_back)),
    ("keys: other check values", Once(check_values)),
    ("keys: registers in another order", Once(moved_registers)),
    ("keys: random bytes", Once(random_bytes)),
    ("keys: published vectors", Once(vectors)),
];

/// Row 20, and the buffer is as it was.
fn refused(compare: &mut Compare, case: &Case) {
    let end = compare.end(case);
    assert_eq!(end.row, 20);
    assert!(end.buffers == case.buffers, "changed the buffer");
}

fn bits(compare: &mut Compare) {
    for _ in 0..5 {
        let case = make::unwrap_key(&mut compare.random);
        assert_eq!(compare.row(&case), 0);
        for input in 0..2 {
            for bit in 0..8 * case.inputs[input].len() {
                let mut damaged = case.clone();
                damaged.inputs[input][bit / 8] ^= 1 << (bit % 8);
                refused(compare, &damaged);
            }
        }
    }
}

fn sizes(compare: &mut Compare) {
    let wrap = make::wrap_key(&mut compare.random);
    let unwrap = make::unwrap_key(&mut compare.random);
    for (case, keys, need) in [(wrap, 2, WRAPPED_KEY), (unwrap, 1, 32)] {
        for input in 0..2 {
            let wrong = if input < keys { 1 } else { 4 };
            for len in 0..=100 {
                let mut sized = case.clone();
                resize(&mut sized.inputs[input], len, &mut compare.random);
                let right = len == case.inputs[input].len();
                assert_eq!(compare.row(&sized), if right { 0 } else { wrong });
            }
        }
        for len in 0..=100 {
            let mut sized = case.clone();
            resize(&mut sized.buffers[0], len, &mut compare.random);
            assert_eq!(compare.row(&sized), if len < need { 7 } else { 0 });
        }
    }
}

/// Random keys, constant ones, and each under itself.
fn there_and_back(compare: &mut Compare) {
    let random = (0..500).map(|_| [32, 32].map(|len| compare.random.bytes(len)));
    let mut pairs: Vec<_> = random.collect();
    for kek in [0x00, 0x01, 0x80, 0xa6, 0xff] {
        for key in [0x00, 0x01, 0x80, 0xa6, 0xff] {
            pairs.push([vec![kek; 32], vec![key; 32]]);
        }
    }
    for [kek, key] in pairs {
        unwraps(compare, [kek.clone(), key]);
        unwraps(compare, [kek.clone(), kek]);
    }
}

/// What is wrapped gives the key back, and under another key row 20.
fn unwraps(compare: &mut Compare, [kek, key]: [Vec<u8>; 2]) {
    let wrap = make::wrap(&mut compare.random, [kek.clone(), key.clone()]);
    let wrapped = compare.end(&wrap);
    assert_eq!((wrapped.row, wrapped.length), (0, 40));
    let wrapped = wrapped.buffers[0][..WRAPPED_KEY].to_vec();

    let mut unwrap = make::unwrap(&mut compare.random, [kek, wrapped]);
    let end = compare.end(&unwrap);
    assert_eq!((end.row, end.length), (0, 32));
    assert!(end.buffers[0][..32] == key, "another key");

    unwrap.inputs[0] = compare.random.bytes(32);
    refused(compare, &unwrap);
}

/// Keys that were wrapped from another check value: nothing else is wrong. The
/// last of them is for 32 bytes with the padding of RFC 5649.
fn check_values(compare: &mut Compare) {
    let bits = (0..64).map(|bit| INITIAL_VALUE ^ 1 << bit);
    let random: Vec<_> = (0..100).map(|_| compare.random.word()).collect();
    let others = [0, u64::MAX, !INITIAL_VALUE, 0xa65959a6_00000020];
    for value in bits.chain(random).chain(others) {
        let [kek, key] = [32, 32].map(|len| compare.random.bytes(len));
        let right = make::wrapped_from(&kek, INITIAL_VALUE, &key);
        known::wrapped_key(compare, [kek.clone(), key.clone()], right);
        let wrong = make::wrapped_from(&kek, value, &key);
        let case = make::unwrap(&mut compare.random, [kek, wrong]);
        refused(compare, &case);
    }
}

fn moved_registers(compare: &mut Compare) {
    let case = make::unwrap_key(&mut compare.random);
    for one in 0..5 {
        for other in 0..one {
            let mut moved = case.clone();
            let (registers, _) = moved.inputs[1].as_chunks_mut::<8>();
            registers.swap(one, other);
            refused(compare, &moved);
        }
    }
}

fn random_bytes(compare: &mut Compare) {
    for _ in 0..2000 {
        let pair = [32, WRAPPED_KEY].map(|len| compare.random.bytes(len));
        let case = make::unwrap(&mut compare.random, pair);
        refused(compare, &case);
    }
}

fn vectors(compare: &mut Compare) {
    let mut kinds = vec![];
    for fields in lines(include_str!("../../vectors/keywrap256.txt")) {
        match fields[..] {
            ["wrap" | "unwrap", kek, wrapped, "ok", key] => {
                known::wrapped_key(compare, [kek, key].map(bytes), bytes(wrapped));
            }
            ["unwrap", kek, wrapped, "FAIL", "-"] => {
                let case = make::unwrap(&mut compare.random, [kek, wrapped].map(bytes));
                refused(compare, &case);
            }
            _ => panic!("not a vector: {fields:?}"),
        }
        kinds.push((fields[0], fields[3]));
    }
    let count = |kind| kinds.iter().filter(|&&other| other == kind).count();
    let counts = [("wrap", "ok"), ("unwrap", "ok"), ("unwrap", "FAIL")].map(count);
    assert_eq!(counts, [30, 22, 8]);
}
