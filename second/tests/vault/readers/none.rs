//! The reader of no bytes: what is left where none is made.

use super::{not_made, opening, reading, refused, ROWS_OF_FILES};
use crate::case::Call;
use crate::compare::Compare;
use crate::fault::{resize, spoil};
use crate::format::{other, sizes, COMBO_PLACE, READER_KEYS};
use crate::log::Log;
use crate::make;
use crate::part::{Part, Run::Each};
use second::vault::{Combo, CHUNK_LEN};

pub const PARTS: &[Part] = &[
    ("readers of no bytes: every row", Each(every_row)),
    ("readers of no bytes: every bit of a header", Each(bits)),
    ("readers of no bytes: files of other vaults", Each(vaults)),
    ("readers of no bytes: every read", Each(every_read)),
];

/// Sizes of buffers: the first has not the room.
const ROOMS: [usize; 4] = [64, 65, 66, 100];

/// Row 4, whatever is read of these files, if there was room for the keys.
fn reads_nothing(compare: &mut Compare, keys: &[u8], files: &[&[u8]]) {
    let Some(keys) = keys.first_chunk::<READER_KEYS>() else {
        return;
    };
    for file in files {
        for range in [[0, 0], [0, 1], [3, 40], [u64::MAX, 1]] {
            let read = reading(file, keys, range, &[7; 40]);
            refused(compare, &read, 4);
        }
        refused(compare, &reading(file, keys, [0, 40], &[]), 4);
    }
}

/// Buffers of random bytes, and such that held a good reader.
fn buffers(compare: &mut Compare, log: &Log) -> Vec<Vec<u8>> {
    let good = log.reader_keys();
    let mut buffers = vec![];
    for room in ROOMS {
        let mut held = good.clone();
        resize(&mut held, room, &mut compare.random);
        buffers.extend([compare.random.bytes(room), held]);
    }
    buffers
}

/// In buffers of each size. In one that is too short, row 7 comes before row 9. A
/// vault that is none leaves them.
fn every_row(compare: &mut Compare, combo: Combo) {
    for len in [0, 60, CHUNK_LEN + 60] {
        let log = Log::new(&mut compare.random, combo, len);
        for &fault in Call::OpenReader.faults() {
            for keys in buffers(compare, &log) {
                let mut open = opening(log.vault(), &log.file, &keys);
                assert!(spoil(&mut open, fault, &mut compare.random));
                let row = match fault.row() {
                    9 if keys.len() < READER_KEYS => 7,
                    row => row,
                };
                let keys = not_made(compare, &open, row);
                if ROWS_OF_FILES.contains(&row) {
                    reads_nothing(compare, &keys, &[&log.file, &open.inputs[1]]);
                }
            }
        }
    }
}

fn bits(compare: &mut Compare, combo: Combo) {
    let log = Log::new(&mut compare.random, combo, 50);
    let good = log.reader_keys();
    for bit in 0..8 * sizes(combo).header {
        let mut open = opening(log.vault(), &log.file, &good);
        open.inputs[1][bit / 8] ^= 1 << (bit % 8);
        let keys = not_made(compare, &open, 9);
        reads_nothing(compare, &keys, &[&log.file, &open.inputs[1]]);
    }
}

/// Of the other combo row 9, or row 4 where it has no file of this length.
fn vaults(compare: &mut Compare, combo: Combo) {
    for len in [0, 1, 30, 60, 40_000] {
        let log = Log::new(&mut compare.random, combo, len);
        let strange = make::vault(&mut compare.random, combo);
        let as_other = make::with_combo(log.vault(), other(combo));
        let good = log.reader_keys();
        for vault in [strange, as_other] {
            let length = make::with_length(Call::CleartextLength, &vault, log.file.len() as u64);
            let row = match compare.row(&length) {
                0 => 9,
                row => row,
            };
            let keys = not_made(compare, &opening(&vault, &log.file, &good), row);
            reads_nothing(compare, &keys, &[&log.file]);
        }
    }
}

/// Of every length of files, and whatever else the keys hold before their last
/// byte.
fn every_read(compare: &mut Compare, combo: Combo) {
    let sizes = sizes(combo);
    let log = Log::new(&mut compare.random, combo, 2 * CHUNK_LEN);
    let mut like = log.reader_keys();
    like[COMBO_PLACE] = 0;
    let ends = [sizes.header - 1, sizes.header, sizes.header + sizes.chunk];
    let lengths = (0..3).chain(ends).chain([log.file.len()]);
    for len in lengths {
        for keys in [&[0; READER_KEYS][..], &like] {
            reads_nothing(compare, keys, &[&log.file[..len]]);
            let whole = reading(&log.file[..len], keys, [0, 65_536], &[7; 65_536]);
            refused(compare, &whole, 4);
        }
    }
}
