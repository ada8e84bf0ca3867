//! Ranges of files.

use crate::case::{Case, End};
use crate::compare::Compare;
use crate::format::sizes;
use crate::make;
use crate::part::{Part, Run::Each};
use second::vault::Combo;

pub const PARTS: &[Part] = &[
    ("ranges: every range of a short file", Each(short)),
    ("ranges: edges of chunks", Each(edges)),
    ("ranges: largest numbers", Each(largest)),
    ("ranges: only covering chunks are read", Each(covering)),
    ("ranges: buffers", Each(buffers)),
];

fn with_range(case: &Case, from: u64, count: u64) -> Case {
    let mut case = case.clone();
    case.numbers = vec![from, count];
    case
}

/// Whether the range is inside, added without wrapping.
fn inside(from: u64, count: u64, len: u64) -> bool {
    u128::from(from) + u128::from(count) <= u128::from(len)
}

fn check(compare: &mut Compare, case: &Case, from: u64, count: u64, len: u64) {
    let End { row, length, .. } = compare.end(&with_range(case, from, count));
    if inside(from, count, len) {
        assert_eq!((row, length), (0, count));
    } else {
        assert_eq!(row, 6, "{from} {count} of {len}");
    }
}

fn short(compare: &mut Compare, combo: Combo) {
    for len in [0, 1, 17, 50] {
        let mut case = make::read_range(&mut compare.random, combo, len as usize, 0, 0);
        case.buffers[0] = compare.random.bytes(60);
        for from in 0..=len + 3 {
            for count in 0..=len + 3 {
                check(compare, &case, from, count, len);
            }
        }
    }
}

fn edges(compare: &mut Compare, combo: Combo) {
    for len in [32_767, 32_768, 32_769, 65_536, 80_000] {
        let mut case = make::read_range(&mut compare.random, combo, len as usize, 0, 0);
        case.buffers[0] = compare.random.bytes(80_003);
        let places = [
            0, 1, 15, 16, 17, 32_766, 32_767, 32_768, 32_769, 65_535, 65_536, 65_537, 80_000,
        ];
        for from in places {
            for end in places {
                if from <= end {
                    check(compare, &case, from, end - from, len);
                }
            }
            check(compare, &case, from, len.saturating_sub(from), len);
            check(compare, &case, from, (len + 1).saturating_sub(from), len);
        }
    }
}

fn largest(compare: &mut Compare, combo: Combo) {
    for len in [0, 1, 40_000] {
        let mut case = make::read_range(&mut compare.random, combo, len as usize, 0, 0);
        case.buffers[0] = compare.random.bytes(8);
        let numbers: Vec<u64> = (0..64)
            .flat_map(|bit| [1u64 << bit, (1 << bit) - 1, u64::MAX << bit])
            .chain([
                len,
                len + 1,
                u64::MAX - len,
                (u64::MAX - len).wrapping_add(1),
            ])
            .collect();
        for &from in &numbers {
            for &count in &numbers {
                // Those inside are slow, and compared elsewhere.
                if !inside(from, count, len) {
                    check(compare, &case, from, count, len);
                }
            }
        }
    }
}

/// Ranges of three chunks.
const RANGES: [(u64, u64); 15] = [
    (0, 1),
    (0, 32_768),
    (0, 32_769),
    (32_767, 1),
    (32_767, 2),
    (32_768, 1),
    (32_768, 32_768),
    (32_767, 32_770),
    (65_535, 2),
    (65_536, 1),
    (98_303, 1),
    (0, 98_304),
    (0, 0),
    (32_768, 0),
    (98_304, 0),
];

/// A range reads whatever the chunks hold that do not cover it, and is refused
/// with the lowest covering one that is damaged.
fn covering(compare: &mut Compare, combo: Combo) {
    let (len, sizes) = (3 * 32_768, sizes(combo));
    let mut case = make::read_range(&mut compare.random, combo, len, 0, 0);
    case.buffers[0] = compare.random.bytes(len);
    for damaged in 0..8 {
        let mut file = case.clone();
        for chunk in (0..3).filter(|chunk| damaged >> chunk & 1 == 1) {
            let start = sizes.header + chunk * sizes.chunk;
            file.inputs[1][start + compare.random.below(sizes.chunk)] ^= 1;
        }
        for (from, count) in RANGES {
            let mut covers = (0..3u64).filter(|chunk| {
                let start = chunk * 32_768;
                count > 0 && from < start + 32_768 && from + count > start
            });
            let first_bad = covers.find(|chunk| damaged >> chunk & 1 == 1);
            let End { row, at, .. } = compare.end(&with_range(&file, from, count));
            match first_bad {
                None => assert_eq!(row, 0),
                Some(chunk) => assert_eq!((row, at), (10, chunk)),
            }
        }
        file.inputs[1][30] ^= 1;
        for (from, count) in RANGES {
            assert_eq!(compare.row(&with_range(&file, from, count)), 9);
        }
    }
}

fn buffers(compare: &mut Compare, combo: Combo) {
    let case = make::read_range(&mut compare.random, combo, 100, 0, 0);
    for count in [0, 1, 30, 100] {
        for len in 0..120 {
            let mut sized = with_range(&case, 0, count);
            sized.buffers[0] = compare.random.bytes(len);
            let row = compare.row(&sized);
            assert_eq!(row, if len < count as usize { 7 } else { 0 });
        }
    }
}
