//! The longest file.

use super::Reader;
use crate::compare::Compare;
use crate::format::{sizes, LONGEST_CLEARTEXT};
use crate::log::Log;
use crate::part::{Part, Run::Each};
use second::vault::Combo;

pub const PARTS: &[Part] = &[("readers: the longest file", Each(longest))];

/// Its last chunk is damaged after a read of it all.
fn longest(compare: &mut Compare, combo: Combo) {
    let log = Log::new(&mut compare.random, combo, LONGEST_CLEARTEXT);
    let mut reader = Reader::new(compare, &log);
    let end = LONGEST_CLEARTEXT as u64;
    let whole = reader.read(compare, 0, end, &vec![7; LONGEST_CLEARTEXT]);
    assert_eq!((whole.row, whole.length), (0, end));
    assert!(whole.buffers[0] == log.cleartext(), "another cleartext");

    reader.file[sizes(combo).header + 511 * sizes(combo).chunk + 100] ^= 4;
    for (from, count, row) in [
        (end, 0, 0),
        (end - 32_769, 1, 0),
        (end - 32_769, 2, 10),
        (end - 1, 1, 10),
        (end, 1, 6),
        (1, end, 6),
        (0, end, 7),
    ] {
        let read = reader.read(compare, from, count, &[7; 2]);
        assert_eq!(read.row, row);
        assert_eq!(read.place(), (row == 10).then_some(511));
    }
}
