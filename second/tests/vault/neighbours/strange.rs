//! Files of other lengths, vaults or readers, and any bytes as files.

use super::both_reads;
use super::random_cuts::cut;
use super::sums::add_up;
use crate::compare::Compare;
use crate::fault::resize;
use crate::format::{other, sizes, READER_KEYS};
use crate::log::Log;
use crate::make;
use crate::part::{Part, Run::Each};
use crate::readers::{not_made, opening, range_read, reading, Reader};
use second::vault::{Combo, CHUNK_LEN};

pub const PARTS: &[Part] = &[
    ("neighbours: files cut and extended", Each(cut_files)),
    ("neighbours: any bytes as a file", Each(any_bytes)),
    ("neighbours: files of other vaults", Each(vaults)),
    ("neighbours: readers of no bytes", Each(no_bytes)),
    ("neighbours: readers of another file", Each(another_file)),
];

fn cut_files(compare: &mut Compare, combo: Combo) {
    let sizes = sizes(combo);
    for len in [0, 1, 30, CHUNK_LEN, CHUNK_LEN + 10] {
        let log = Log::new(&mut compare.random, combo, len);
        let (written, more) = (log.file.len(), sizes.overhead + 12);
        let near = written.saturating_sub(more)..written + more;
        for file_len in (0..sizes.header + 4).chain(near) {
            let mut file = log.file.clone();
            resize(&mut file, file_len, &mut compare.random);
            for read in both_reads(compare, &log, &file) {
                let cut = cut(&mut compare.random, len);
                add_up(compare, &log, &read, cut);
            }
        }
    }
}

/// Of every length up to that of a short file, and around one chunk.
fn any_bytes(compare: &mut Compare, combo: Combo) {
    let log = Log::new(&mut compare.random, combo, 0);
    let edges = sizes(combo).around_edges();
    for len in (0..200).chain(edges.filter(|&len| len < 2 * CHUNK_LEN)) {
        let file = compare.random.bytes(len);
        for read in both_reads(compare, &log, &file) {
            for _ in 0..3 {
                let cut = cut(&mut compare.random, len);
                add_up(compare, &log, &read, cut);
            }
        }
    }
}

/// Of other keys, and of the other combo.
fn vaults(compare: &mut Compare, combo: Combo) {
    for len in [0, 1, 30, 60, 40_000] {
        let log = Log::new(&mut compare.random, combo, len);
        let strange = make::vault(&mut compare.random, combo);
        let as_other = make::with_combo(log.vault(), other(combo));
        for vault in [strange, as_other] {
            let read = range_read(&vault, &log.file, [0, 0], &[]);
            for _ in 0..20 {
                let cut = cut(&mut compare.random, len);
                assert_ne!(add_up(compare, &log, &read, cut)[2], 0);
            }
        }
    }
}

/// The zeros that are left where a file is refused, by its header or its length.
fn no_bytes(compare: &mut Compare, combo: Combo) {
    for len in [0, 1, 60, 40_000] {
        let log = Log::new(&mut compare.random, combo, len);
        let mut file = log.file.clone();
        file[sizes(combo).header - 1] ^= 1;
        refused(compare, &log, &file, 9);
        file.truncate(sizes(combo).header - 1);
        refused(compare, &log, &file, 4);
    }
}

/// Row 4, whatever is read of this file or of the log's.
fn refused(compare: &mut Compare, log: &Log, file: &[u8], row: u32) {
    let room = compare.random.bytes(READER_KEYS);
    let keys = not_made(compare, &opening(log.vault(), file, &room), row);
    for file in [file, &log.file] {
        let read = reading(file, &keys, [0, 0], &[]);
        for _ in 0..10 {
            let cut = cut(&mut compare.random, log.cleartext().len());
            assert_eq!(add_up(compare, log, &read, cut), [4; 3]);
        }
    }
}

/// Of another content key. The MAC of SIV_CTRMAC does not cover it, so that other
/// bytes are given.
fn another_file(compare: &mut Compare, combo: Combo) {
    for len in [2, 40, CHUNK_LEN + 40] {
        let log = Log::new(&mut compare.random, combo, len);
        let garbled = garbled(&log, compare.random.bytes(32));
        let keys = Reader::new(compare, &garbled).keys;
        let read = reading(&log.file, &keys, [0, 0], &[]);
        let row = match combo {
            Combo::SivGcm => 10,
            Combo::SivCtrmac => 0,
        };
        let halves = [0, len / 2, len].map(|place| place as u64);
        assert_eq!(add_up(compare, &garbled, &read, halves), [row; 3]);
        for _ in 0..20 {
            let cut = cut(&mut compare.random, len);
            add_up(compare, &garbled, &read, cut);
        }
    }
}

/// The log that has this content key, and in SIV_CTRMAC the same chunks.
fn garbled(log: &Log, key: Vec<u8>) -> Log {
    let mut write = log.write.clone();
    write.inputs[2] = key;
    let other = Log::of(log.combo, write.clone());
    let bytes = ciphertext(log).zip(ciphertext(&other));
    for (byte, (one, other)) in write.inputs[4].iter_mut().zip(bytes) {
        *byte ^= one ^ other;
    }
    Log::of(log.combo, write)
}

/// The ciphertext of all chunks.
fn ciphertext(log: &Log) -> impl Iterator<Item = u8> + '_ {
    let sizes = sizes(log.combo);
    let chunks = log.file[sizes.header..].chunks(sizes.chunk);
    chunks.flat_map(move |chunk| {
        let end = chunk.len() + sizes.nonce - sizes.overhead;
        chunk[sizes.nonce..end].iter().copied()
    })
}
