//! Files of other lengths.

use super::{refused, Log};
use crate::compare::Compare;
use crate::fault::resize;
use crate::format::sizes;
use crate::part::{Part, Run::Each};
use second::vault::{Combo, CHUNK_LEN};

pub const PARTS: &[Part] = &[
    ("mends: files cut and extended", Each(cut)),
    ("mends: every length around an edge", Each(around_edges)),
];

/// Files that have more bytes or fewer than were written.
fn cut(compare: &mut Compare, combo: Combo) {
    let sizes = sizes(combo);
    for len in [0, 1, 30, CHUNK_LEN, CHUNK_LEN + 10] {
        let log = Log::new(&mut compare.random, combo, len);
        let (file, more) = (log.file.len(), sizes.overhead + 12);
        let near = file.saturating_sub(more)..file + more;
        for len in (0..sizes.header + 4).chain(near) {
            with_length(compare, &log, len);
        }
    }
}

/// Mends the first byte, and none. Row 4 where no file has this length; else the
/// first chunk must be there and have its own length.
fn with_length(compare: &mut Compare, log: &Log, len: usize) {
    let sizes = sizes(log.combo);
    let rest = len.checked_sub(sizes.header).map(|rest| rest % sizes.chunk);
    let first_end = |len: usize| len.min(sizes.header + sizes.chunk);
    let rows = match rest {
        None => [4, 4],
        Some(rest) if (1..=sizes.overhead).contains(&rest) => [4, 4],
        _ if len == sizes.header => [6, 0],
        _ if first_end(len) == first_end(log.file.len()) => [0, 0],
        _ => [10, 0],
    };
    for (count, row) in [1, 0].into_iter().zip(rows) {
        let mut mend = log.mend(&mut compare.random, 0, count);
        resize(&mut mend.buffers[0], len, &mut compare.random);
        match row {
            0 => assert_eq!(compare.row(&mend), 0),
            row => drop(refused(compare, &mend, row)),
        }
    }
}

/// Bytes of each length around those of no cleartext, of a chunk's overhead, of
/// one chunk and of the most chunks: row 4, or the header is wrong.
fn around_edges(compare: &mut Compare, combo: Combo) {
    let sizes = sizes(combo);
    let log = Log::new(&mut compare.random, combo, 0);
    let mut mend = log.mend(&mut compare.random, 0, 0);
    for len in sizes.around_edges() {
        mend.buffers[0] = vec![9; len];
        refused(compare, &mend, if sizes.fits(len) { 9 } else { 4 });
    }
}
