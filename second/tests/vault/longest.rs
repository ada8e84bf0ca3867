//! The longest file, and one byte more.

use crate::case::{Call, End};
use crate::compare::Compare;
use crate::format::{sizes, LONGEST_CLEARTEXT};
use crate::make;
use crate::part::{Part, Run::Each};
use second::vault::Combo;

pub const PARTS: &[Part] = &[
    ("the longest file is written", Each(written)),
    ("the longest file is opened", Each(opened)),
    ("one byte more than the longest", Each(one_more)),
];

fn written(compare: &mut Compare, combo: Combo) {
    let case = make::write_file(&mut compare.random, combo, LONGEST_CLEARTEXT);
    let End { row, length, .. } = compare.end(&case);
    assert_eq!((row, length), (0, sizes(combo).longest_file as u64));
    // The last nonce is that of the first chunk.
    let mut repeated = case;
    let nonce = sizes(combo).nonce;
    repeated.inputs[3].copy_within(..nonce, 511 * nonce);
    assert_eq!(compare.row(&repeated), 8);
    repeated.buffers[0].truncate(sizes(combo).longest_file - 1);
    assert_eq!(compare.row(&repeated), 7);
}

fn opened(compare: &mut Compare, combo: Combo) {
    let mut case = make::open_file(&mut compare.random, combo, LONGEST_CLEARTEXT);
    let End { row, length, .. } = compare.end(&case);
    assert_eq!((row, length), (0, LONGEST_CLEARTEXT as u64));

    case.inputs[1][sizes(combo).header + 511 * sizes(combo).chunk + 100] ^= 4;
    let End { row, at, .. } = compare.end(&case);
    assert_eq!((row, at), (10, 511));

    case.call = Call::ReadRange;
    let end = LONGEST_CLEARTEXT as u64;
    for (from, count, expected) in [
        (end, 0, 0),
        (end - 32_769, 1, 0),
        (end - 32_769, 2, 10),
        (end - 1, 1, 10),
        (end, 1, 6),
        (1, end, 6),
    ] {
        case.numbers = vec![from, count];
        assert_eq!(compare.row(&case), expected);
    }
}

fn one_more(compare: &mut Compare, combo: Combo) {
    let sizes = sizes(combo);
    let mut write = make::write_file(&mut compare.random, combo, 1);
    write.inputs[4] = vec![1; LONGEST_CLEARTEXT + 1];
    write.inputs[3] = compare.random.bytes(513 * sizes.nonce);
    assert_eq!(compare.row(&write), 4);
    write.inputs[3].truncate(512 * sizes.nonce);
    assert_eq!(compare.row(&write), 1);

    let mut open = make::open_file(&mut compare.random, combo, 0);
    for more in [1, sizes.overhead, sizes.overhead + 1, sizes.chunk] {
        open.inputs[1].resize(sizes.longest_file + more, 0);
        assert_eq!(compare.row(&open), 4);
    }
}
