//! Readers that stay at one place, with the file that was lent for them.

use super::{opening, reading};
use crate::case::{Case, End};
use crate::common::random::Random;
use crate::common::readers::{open_reader, reader_read};
use crate::compare::Compare;
use crate::format::READER_KEYS;
use crate::log::Log;
use crate::part::{Part, Run::Each};
use crate::predict;
use second::vault::{self, Combo, Vault, CHUNK_LEN};

pub const PARTS: &[Part] = &[("readers: kept at one place", Each(kept))];

/// Both programs keep their reader, the second program as its own struct.
fn kept(compare: &mut Compare, combo: Combo) {
    let len = 2 * CHUNK_LEN + 500;
    let mut log = Log::new(&mut compare.random, combo, len);
    let last = log.file.len() - 1;
    log.file[last] ^= 1;
    let mut keys = [7; READER_KEYS];
    let mut length = 0;
    let row = open_reader(log.vault(), &log.file, &mut keys, &mut length);
    assert_eq!((row, length), (0, len as u64));
    let end = compare.end(&opening(log.vault(), &log.file, &[0; READER_KEYS]));
    assert_eq!(end.buffers[0], keys);

    let vault = Vault::from_bytes(log.vault()).expect("a vault");
    let (length, reader) = vault.open_reader(&log.file);
    assert_eq!(length, Ok(len as u64));
    for _ in 0..600 {
        let (from, count) = range(&mut compare.random, len);
        let read = reading(&log.file, &keys, [from, count], &[7; 300]);
        let end = compare.end(&read);
        assert!(by_library(&read, &log.file, &keys) == end, "other ends");
        assert!(by_second(&read, &reader) == end, "other ends");
    }
    assert_eq!(keys, *log.reader_keys(), "changed the keys");
}

fn by_library(read: &Case, file: &[u8], keys: &[u8]) -> End {
    let (mut buffers, (from, count)) = (read.buffers.clone(), read.range());
    let [mut length, other, mut at] = read.old_results();
    let out = &mut buffers[0];
    let row = reader_read(file, keys, from, count, out, &mut length, &mut at);
    End {
        row,
        length,
        other,
        at,
        buffers,
    }
}

fn by_second(read: &Case, reader: &vault::Reader) -> End {
    let (mut buffers, (from, count)) = (read.buffers.clone(), read.range());
    let length = reader.read(from, count, &mut buffers[0]);
    let answer = length.map(|length| (length as u64, None));
    predict::end_of(read, answer, buffers)
}

/// Up to 300 bytes anywhere, and often up to the end, where the file is damaged.
/// One behind the end is row 6, and more than 300 bytes are row 7.
fn range(random: &mut Random, len: usize) -> (u64, u64) {
    let count = random.below(302);
    let from = match random.below(3) {
        0 => len - count + random.below(2),
        _ => random.below(len - count),
    };
    (from as u64, count as u64)
}
