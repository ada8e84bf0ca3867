//! Single chunks.

use crate::compare::Compare;
use crate::fault::resize;
use crate::format;
use crate::make;
use crate::part::{Part, Run::Each};
use second::vault::Combo;

pub const PARTS: &[Part] = &[
    ("chunks: every bit", Each(bits)),
    ("chunks: every bit of the content key", Each(content_key)),
    ("chunks: every short length", Each(lengths)),
    ("chunks: lengths at edges", Each(edges)),
    ("chunks: numbers", Each(numbers)),
    ("chunks: every size of key, nonce and buffer", Each(sizes)),
];

/// Of the header's nonce and of the chunk.
fn bits(compare: &mut Compare, combo: Combo) {
    for len in [1, 16, 37] {
        let case = make::open_chunk(&mut compare.random, combo, len);
        assert_eq!(compare.row(&case), 0);
        for input in [2, 3] {
            for bit in 0..8 * case.inputs[input].len() {
                let mut damaged = case.clone();
                damaged.inputs[input][bit / 8] ^= 1 << (bit % 8);
                let end = compare.end(&damaged);
                assert_eq!((end.row, end.at), (10, case.numbers[0]));
            }
        }
    }
}

/// The tag of SIV_CTRMAC does not cover it: under another one the chunk opens
/// to other bytes.
fn content_key(compare: &mut Compare, combo: Combo) {
    let case = make::open_chunk(&mut compare.random, combo, 37);
    let right = compare.end(&case);
    for bit in 0..256 {
        let mut other = case.clone();
        other.inputs[1][bit / 8] ^= 1 << (bit % 8);
        let end = compare.end(&other);
        match combo {
            Combo::SivGcm => assert_eq!(end.row, 10),
            Combo::SivCtrmac => assert!(end.row == 0 && end.buffers != right.buffers),
        }
    }
}

fn lengths(compare: &mut Compare, combo: Combo) {
    for len in 1..300 {
        let case = make::write_chunk(&mut compare.random, combo, len);
        assert_eq!(compare.row(&case), 0);
        let case = make::open_chunk(&mut compare.random, combo, len);
        assert_eq!(compare.row(&case), 0);
    }
    let case = make::open_chunk(&mut compare.random, combo, 60);
    let overhead = format::sizes(combo).overhead;
    for len in 0..200 {
        let mut cut = case.clone();
        cut.buffers = vec![compare.random.bytes(172)];
        resize(&mut cut.inputs[3], len, &mut compare.random);
        let row = match len {
            _ if len <= overhead => 4,
            _ if len == 60 + overhead => 0,
            _ => 10,
        };
        assert_eq!(compare.row(&cut), row);
    }
}

fn edges(compare: &mut Compare, combo: Combo) {
    let overhead = format::sizes(combo).overhead;
    for len in [0, 1, 2, 32_766, 32_767, 32_768, 32_769, 32_770, 65_536] {
        let fits = (1..=32_768).contains(&len);
        let case = make::write_chunk(&mut compare.random, combo, len);
        assert_eq!(compare.row(&case), if fits { 0 } else { 4 });
        let mut case = make::open_chunk(&mut compare.random, combo, len.clamp(1, 32_768));
        resize(&mut case.inputs[3], len + overhead, &mut compare.random);
        assert_eq!(compare.row(&case), if fits { 0 } else { 4 });
    }
}

/// Every bit of a number counts.
fn numbers(compare: &mut Compare, combo: Combo) {
    let case = make::open_chunk(&mut compare.random, combo, 20);
    for bit in 0..64 {
        let mut other = case.clone();
        other.numbers[0] ^= 1 << bit;
        let end = compare.end(&other);
        assert_eq!((end.row, end.at), (10, other.numbers[0]));
        let mut write = make::write_chunk(&mut compare.random, combo, 20);
        write.numbers = other.numbers;
        assert_eq!(compare.row(&write), 0);
    }
}

fn sizes(compare: &mut Compare, combo: Combo) {
    let write = make::write_chunk(&mut compare.random, combo, 40);
    let open = make::open_chunk(&mut compare.random, combo, 40);
    let stored = 40 + format::sizes(combo).overhead;
    for (case, sized, need) in [(write, 4, stored), (open, 3, 40)] {
        for input in 0..sized {
            for len in 0..80 {
                let mut other = case.clone();
                resize(&mut other.inputs[input], len, &mut compare.random);
                let right = len == case.inputs[input].len();
                assert_eq!(compare.row(&other), if right { 0 } else { 1 });
            }
        }
        for len in 0..100 {
            let mut other = case.clone();
            resize(&mut other.buffers[0], len, &mut compare.random);
            assert_eq!(compare.row(&other), if len < need { 7 } else { 0 });
        }
    }
}
