//! Single headers.

use crate::case::{Call, End};
use crate::compare::Compare;
use crate::fault::resize;
use crate::format;
use crate::make;
use crate::part::{Part, Run::Each};
use second::vault::Combo;

pub const PARTS: &[Part] = &[
    ("headers: every bit", Each(bits)),
    ("headers: every size", Each(sizes)),
    ("headers: reserved bytes", Each(reserved)),
];

fn bits(compare: &mut Compare, combo: Combo) {
    let case = make::open_header(&mut compare.random, combo);
    assert_eq!(compare.row(&case), 0);
    for bit in 0..8 * case.inputs[1].len() {
        let mut damaged = case.clone();
        damaged.inputs[1][bit / 8] ^= 1 << (bit % 8);
        assert_eq!(compare.row(&damaged), 9);
    }
}

/// Every value of each reserved byte, among others that all differ, is accepted
/// under a right tag and returned.
fn reserved(compare: &mut Compare, combo: Combo) {
    let mut case = make::open_header(&mut compare.random, combo);
    let vault = case.inputs[0].clone();
    for place in 0..8 {
        for value in 0..=255 {
            let mut reserved = [1, 2, 3, 4, 5, 6, 7, 8];
            reserved[place] = value;
            make::set_reserved(&vault, &mut case.inputs[1], reserved);
            let End { row, other, .. } = compare.end(&case);
            assert_eq!((row, other.to_be_bytes()), (0, reserved));
        }
    }
}

fn sizes(compare: &mut Compare, combo: Combo) {
    let write = make::write_header(&mut compare.random, combo);
    let open = make::open_header(&mut compare.random, combo);
    for (case, need) in [(write, format::sizes(combo).header), (open, 32)] {
        for input in 0..case.inputs.len() {
            let wrong = match (case.call, input) {
                (Call::OpenHeader, 1) => 4,
                _ => 1,
            };
            for len in 0..130 {
                let mut sized = case.clone();
                resize(&mut sized.inputs[input], len, &mut compare.random);
                let right = len == case.inputs[input].len();
                assert_eq!(compare.row(&sized), if right { 0 } else { wrong });
            }
        }
        for len in 0..130 {
            let mut sized = case.clone();
            resize(&mut sized.buffers[0], len, &mut compare.random);
            assert_eq!(compare.row(&sized), if len < need { 7 } else { 0 });
        }
    }
}
