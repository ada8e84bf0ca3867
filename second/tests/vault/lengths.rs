//! The calls on lengths.

use crate::case::{Call, End};
use crate::compare::Compare;
use crate::format;
use crate::make::{self, with_length};
use crate::part::{Part, Run::Each};
use second::vault::Combo;

pub const PARTS: &[Part] = &[("lengths at edges", Each(edges))];

/// Around each multiple of a chunk, and around each power of two.
fn edges(compare: &mut Compare, combo: Combo) {
    let sizes = format::sizes(combo);
    let vault = make::vault(&mut compare.random, combo);
    let powers = (0..64).map(|bit| 1u64 << bit);
    let chunks = (0..=520).map(|i| i * 32_768);
    let stored = (0..=520).map(|i| (sizes.header + i * sizes.chunk) as u64);
    for edge in powers.chain(chunks).chain(stored).chain([0, u64::MAX]) {
        for i in 0..=sizes.overhead as u64 + 4 {
            both(compare, &vault, edge.wrapping_add(i));
            both(compare, &vault, edge.wrapping_sub(i));
        }
    }
    for number in 0..1000 {
        both(compare, &vault, number);
    }
}

fn both(compare: &mut Compare, vault: &[u8], length: u64) {
    let end = compare.end(&with_length(Call::FileLength, vault, length));
    let fits = length <= 16_777_216;
    assert_eq!(end.row, if fits { 0 } else { 4 });
    if let End {
        row: 0,
        length: file,
        ..
    } = end
    {
        let back = compare.end(&with_length(Call::CleartextLength, vault, file));
        assert_eq!((back.row, back.length), (0, length));
    }
    compare.end(&with_length(Call::CleartextLength, vault, length));
}
