//! Readers that are made.

use super::{not_made, opening, Reader};
use crate::compare::Compare;
use crate::format::{sizes, READER_KEYS};
use crate::log::Log;
use crate::make;
use crate::part::{Part, Run::Each};
use second::vault::Combo;

pub const PARTS: &[Part] = &[
    ("readers: made", Each(made)),
    ("readers: every size of the buffer for keys", Each(buffers)),
    ("readers: reserved bytes of the header", Each(reserved)),
    ("readers: made without a look at chunks", Each(chunks)),
    ("readers: made over another one", Each(over_another)),
];

fn made(compare: &mut Compare, combo: Combo) {
    for len in (0..70).chain([32_767, 32_768, 32_769, 65_536, 80_000]) {
        let log = Log::new(&mut compare.random, combo, len);
        Reader::new(compare, &log);
    }
}

/// Row 7 for less than 65 bytes. Of a longer one the rest stays.
fn buffers(compare: &mut Compare, combo: Combo) {
    for len in [0, 100] {
        let log = Log::new(&mut compare.random, combo, len);
        for room in (0..=140).chain([1000, 256 + 64, 65_536 + 64]) {
            let open = opening(log.vault(), &log.file, &compare.random.bytes(room));
            if room < READER_KEYS {
                not_made(compare, &open, 7);
                continue;
            }
            let end = compare.end(&open);
            assert_eq!((end.row, end.length), (0, len as u64));
            let (keys, rest) = end.buffers[0].split_at(READER_KEYS);
            assert_eq!(keys, log.reader_keys());
            assert_eq!(rest, &open.buffers[0][READER_KEYS..]);
        }
    }
}

/// Any are accepted. They are not kept, and no read goes by them.
fn reserved(compare: &mut Compare, combo: Combo) {
    for len in [0, 40, 40_000] {
        let mut log = Log::new(&mut compare.random, combo, len);
        let out = compare.random.bytes(len);
        for reserved in [0, 1, len as u64, 0x0102_0304_0506_0708, u64::MAX - 1] {
            let vault = log.vault().to_vec();
            make::set_reserved(&vault, &mut log.file, reserved.to_be_bytes());
            let reader = Reader::new(compare, &log);
            let end = reader.read(compare, 0, len as u64, &out);
            assert!(end.row == 0 && end.buffers[0] == log.cleartext());
        }
    }
}

/// They may hold anything.
fn chunks(compare: &mut Compare, combo: Combo) {
    for len in [1, 40, 32_768, 80_000] {
        let mut log = Log::new(&mut compare.random, combo, len);
        log.file[sizes(combo).header..].fill(0xa5);
        let reader = Reader::new(compare, &log);
        let end = reader.read(compare, len as u64 - 1, 1, &[7]);
        assert_eq!((end.row, end.at), (10, (len as u64 - 1) / 32_768));
        let end = reader.read(compare, len as u64 / 2, 0, &[]);
        assert_eq!(end.row, 0);
    }
}

/// What stood in the buffer does not matter.
fn over_another(compare: &mut Compare, combo: Combo) {
    let logs = [0, 50, 40_000].map(|len| Log::new(&mut compare.random, combo, len));
    for one in &logs {
        for other in &logs {
            let keys = other.reader_keys();
            let end = compare.end(&opening(one.vault(), &one.file, &keys));
            assert_eq!(end.row, 0);
            assert_eq!(end.buffers[0], one.reader_keys());
        }
    }
}
