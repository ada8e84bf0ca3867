//! Files of other lengths.

use super::{not_made, opening, reading, refused, Reader};
use crate::compare::Compare;
use crate::fault::resize;
use crate::format::{sizes, READER_KEYS};
use crate::log::Log;
use crate::make;
use crate::part::{Part, Run::Each};
use second::vault::{Combo, CHUNK_LEN};

pub const PARTS: &[Part] = &[
    ("readers: files cut and extended", Each(cut)),
    ("readers: every length around an edge", Each(around_edges)),
];

/// Files that have more bytes or fewer than were written, and than the reader was
/// made for: their reader can be made anew, or not.
fn cut(compare: &mut Compare, combo: Combo) {
    let sizes = sizes(combo);
    for len in [0, 1, 30, CHUNK_LEN, CHUNK_LEN + 10] {
        let log = Log::new(&mut compare.random, combo, len);
        let reader = Reader::new(compare, &log);
        let (file, more) = (log.file.len(), sizes.overhead + 12);
        let near = file.saturating_sub(more)..file + more;
        for len in (0..sizes.header + 4).chain(near) {
            let mut other = log.file.clone();
            resize(&mut other, len, &mut compare.random);
            with_length(compare, &reader.with_file(other), sizes.fits(len));
        }
    }
}

/// Reads one byte and none at some places.
fn with_length(compare: &mut Compare, reader: &Reader, fits: bool) {
    let open = opening(&reader.vault, &reader.file, &reader.keys);
    if fits {
        let end = compare.end(&open);
        assert_eq!((end.row, &end.buffers[0]), (0, &reader.keys));
    } else {
        not_made(compare, &open, 4);
    }
    for (from, count) in [(0, 0), (0, 1), (29, 1), (CHUNK_LEN as u64, 1)] {
        let end = reader.read(compare, from, count, &[7]);
        assert_eq!(end.row == 4, !fits);
    }
}

/// Bytes of each length around those of no cleartext, of a chunk's overhead, of
/// one chunk and of the most chunks: row 4, or the header and each chunk are
/// wrong.
fn around_edges(compare: &mut Compare, combo: Combo) {
    let sizes = sizes(combo);
    let vault = make::vault(&mut compare.random, combo);
    let keys = [
        &compare.random.bytes(READER_KEYS - 1)[..],
        &[combo.number()],
    ]
    .concat();
    for len in sizes.around_edges() {
        let (file, fits) = (vec![9; len], sizes.fits(len));
        let row = if fits { 9 } else { 4 };
        not_made(compare, &opening(&vault, &file, &keys), row);
        let none = reading(&file, &keys, [0, 0], &[7]);
        let first = reading(&file, &keys, [0, 1], &[7]);
        match fits {
            false => {
                refused(compare, &none, 4);
                refused(compare, &first, 4);
            }
            true => {
                assert_eq!(compare.row(&none), 0);
                let row = if len == sizes.header { 6 } else { 10 };
                refused(compare, &first, row);
            }
        }
    }
}
