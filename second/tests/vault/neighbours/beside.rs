//! A mend leaves the reads that share no byte with it.

use super::{ended, of_range};
use crate::case::{Case, End};
use crate::compare::Compare;
use crate::format::READER_KEYS;
use crate::log::Log;
use crate::readers::{opening, range_read, reading};
use std::ops::Range;

/// A mended range of a log, and two reads of the file before the mend and after
/// it: the range read, and the one through its reader.
pub struct Mended<'a> {
    range: Range<u64>,
    log: &'a Log,
    mended: Log,
    reads: [[Case; 2]; 2],
}

impl<'a> Mended<'a> {
    /// Mends the log's file, or a damaged one, so that each byte of the range is
    /// another one then. Fails unless its reader is made after the mend as before
    /// it, to the last byte: reads through either are thus the same calls.
    pub fn new(compare: &mut Compare, log: &'a Log, file: Vec<u8>, range: Range<usize>) -> Self {
        let mut mend = log.mend(&mut compare.random, range.start, range.len());
        mend.buffers[0] = file;
        let old = &log.cleartext()[range.clone()];
        for (new, old) in mend.inputs[1].iter_mut().zip(old) {
            *new = old.wrapping_add(1 + compare.random.below(255) as u8);
        }
        let done = compare.end(&mend);
        assert_eq!(done.row, 0);

        let files = [&mend.buffers[0], &done.buffers[0]];
        let room = compare.random.bytes(READER_KEYS);
        let readers = files.map(|file| compare.end(&opening(log.vault(), file, &room)));
        assert_eq!(readers[0].row, 0);
        assert!(readers[0] == readers[1], "another reader");
        let reads = files.map(|file| {
            [
                range_read(log.vault(), file, [0, 0], &[]),
                reading(file, &readers[0].buffers[0], [0, 0], &[]),
            ]
        });
        Mended {
            range: range.start as u64..range.end as u64,
            log,
            mended: log.mended(&mend),
            reads,
        }
    }

    /// Reads a range in both ways before the mend and after it, and fails unless
    /// the ends are equal, or differ in just the bytes that are shared. Gives
    /// whether the range shares any, and the row.
    pub fn read(&self, compare: &mut Compare, from: u64, count: u64, out: &[u8]) -> (bool, u32) {
        let shares = self.shares(from, count);
        let [before, after] = &self.reads;
        let rows = [0, 1].map(|way| {
            let sides = [(self.log, &before[way]), (&self.mended, &after[way])];
            let [before, after] =
                sides.map(|(log, read)| ended(compare, log, &of_range(read, from, count, out)));
            if shares {
                self.differ(from, &before, &after);
            } else {
                assert!(before == after, "{from} {count}: another end");
            }
            before.row
        });
        assert_eq!(rows[0], rows[1]);
        (shares, rows[0])
    }

    /// Whether a byte is in both ranges.
    fn shares(&self, from: u64, count: u64) -> bool {
        let start = from.max(self.range.start);
        let end = (u128::from(from) + u128::from(count)).min(self.range.end.into());
        u128::from(start) < end
    }

    /// Fails unless the answers are equal, and the buffers but for the shared
    /// bytes, all of which are others.
    fn differ(&self, from: u64, before: &End, after: &End) {
        let [old, new] = [before, after].map(|end| (end.row, end.length, end.place()));
        assert_eq!(old, new, "another answer");
        let read = match before.row {
            0 => from..from + before.length,
            _ => 0..0,
        };
        let bytes = before.buffers[0].iter().zip(&after.buffers[0]);
        for (place, (old, new)) in (from..).zip(bytes) {
            let is_shared = read.contains(&place) && self.range.contains(&place);
            assert_eq!(old != new, is_shared, "at {place}");
        }
    }
}
