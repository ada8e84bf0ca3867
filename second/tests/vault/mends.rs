//! Mends.

mod counters;
mod damage;
mod headers;
mod known;
mod lengths;
mod longest;
mod nonces;
mod numbers;
mod ranges;
mod rows;
mod series;
mod strange;

use crate::case::{Call, Case, End};
use crate::compare::Compare;
use crate::log::Log;
use crate::part::Part;
use std::ops::Range;

pub const PARTS: [&[Part]; 12] = [
    longest::PARTS,
    ranges::PARTS,
    numbers::PARTS,
    nonces::PARTS,
    damage::PARTS,
    strange::PARTS,
    headers::PARTS,
    lengths::PARTS,
    rows::PARTS,
    series::PARTS,
    counters::PARTS,
    known::PARTS,
];

/// Fails unless the mend is done: the chunks that it covers are then those of the
/// log as it is written with the new bytes and nonces, and all else in the file
/// that is lent, which may be damaged there, is as it was. Gives that log.
fn done(compare: &mut Compare, log: &Log, mend: &Case) -> Log {
    let mended = log.mended(mend);
    let mut file = mend.buffers[0].clone();
    let covering = log.covering(mend);
    file[covering.clone()].copy_from_slice(&mended.file[covering]);

    let end = compare.end(mend);
    let count = mend.inputs[1].len() as u64;
    assert_eq!((end.row, end.length, end.place()), (0, count, None));
    assert!(end.buffers[0] == file, "another file");
    mended
}

/// Fails unless the mend is refused with this row, and the file stays as it was.
/// Row 10 has a chunk's number.
fn refused(compare: &mut Compare, mend: &Case, row: u32) -> Option<u64> {
    let end = compare.end(mend);
    let [length, ..] = mend.old_results();
    assert_eq!((end.row, end.length), (row, length));
    assert_eq!(end.place().is_some(), row == 10);
    assert!(end.buffers == mend.buffers, "changed a file");
    end.place()
}

/// Fails unless the file opens to its cleartext, and is read so around both ends
/// of a range.
fn opens(compare: &mut Compare, log: &Log, range: Range<usize>) {
    let End { row, buffers, .. } = compare.end(&opening(log, Call::OpenFile, vec![]));
    assert_eq!(row, 0);
    assert!(buffers[0] == log.cleartext(), "another cleartext");
    reads(compare, log, range);
}

/// Fails unless the file is read as it should be around both ends of a range.
fn reads(compare: &mut Compare, log: &Log, range: Range<usize>) {
    for place in [range.start, range.end] {
        let from = place.saturating_sub(20);
        let part = &log.cleartext()[from..log.cleartext().len().min(place + 20)];
        let numbers = vec![from as u64, part.len() as u64];
        let end = compare.end(&opening(log, Call::ReadRange, numbers));
        assert_eq!((end.row, end.length), (0, part.len() as u64));
        assert!(end.buffers[0].starts_with(part), "another cleartext");
    }
}

/// The call that opens the file or reads it, with room for all of it.
fn opening(log: &Log, call: Call, numbers: Vec<u64>) -> Case {
    Case {
        call,
        inputs: vec![log.vault().to_vec(), log.file.clone()],
        numbers,
        buffers: vec![vec![0xa5; log.cleartext().len()]],
    }
}
