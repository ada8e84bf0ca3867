//! Reads of neighbouring ranges: two of them add up to one, and a mend leaves
//! those that are beside it.

mod beside;
mod cuts;
mod expected;
mod mends;
mod random_cuts;
mod random_mends;
mod strange;
mod sums;

use crate::case::{Case, End};
use crate::common::random::Random;
use crate::compare::Compare;
use crate::log::Log;
use crate::make;
use crate::part::Part;
use crate::readers::{range_read, reading, Reader};
use second::vault::CHUNK_LEN;

pub const PARTS: [&[Part]; 5] = [
    cuts::PARTS,
    strange::PARTS,
    random_cuts::PARTS,
    mends::PARTS,
    random_mends::PARTS,
];

/// The range read of these bytes under the log's vault, and the read of them
/// through the log's reader, which both programs make.
fn both_reads(compare: &mut Compare, log: &Log, file: &[u8]) -> [Case; 2] {
    let keys = Reader::new(compare, log).keys;
    [
        range_read(log.vault(), file, [0, 0], &[]),
        reading(file, &keys, [0, 0], &[]),
    ]
}

/// The same read of another range, into another buffer.
fn of_range(read: &Case, from: u64, count: u64, out: &[u8]) -> Case {
    Case {
        numbers: vec![from, count],
        buffers: vec![out.to_vec()],
        ..read.clone()
    }
}

/// Makes the read, and fails unless it ends as it must.
fn ended(compare: &mut Compare, log: &Log, read: &Case) -> End {
    let (end, expected) = (compare.end(read), expected::end(log, read));
    let answer = |end: &End| (end.row, end.length, end.place());
    assert_eq!(answer(&end), answer(&expected), "{:?}", read.numbers);
    assert!(end == expected, "other bytes in the buffer");
    end
}

/// The length of a random cleartext of up to four chunks, often at the edge of
/// one.
fn random_len(random: &mut Random) -> usize {
    match random.below(4) {
        0 => random.below(100),
        1 => random.below(4 * CHUNK_LEN + 1),
        _ => make::place(random, 4 * CHUNK_LEN),
    }
}
