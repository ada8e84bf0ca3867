//! Readers of one file with the bytes of another.

use super::{gives, reading, refused, Reader};
use crate::compare::Compare;
use crate::format::{other, sizes, COMBO_PLACE};
use crate::log::Log;
use crate::part::{Part, Run::Each};
use second::vault::{Combo, CHUNK_LEN};

pub const PARTS: &[Part] = &[
    ("readers: files of other keys", Each(other_keys)),
    ("readers: files of another header nonce", Each(other_nonce)),
    ("readers: chunks in another order", Each(moved)),
    ("readers: shorter and longer files", Each(other_lengths)),
    ("readers: files of the other combo", Each(other_combo)),
];

/// The log with one of what it was written with replaced by random bytes.
fn rewritten(compare: &mut Compare, log: &Log, input: usize) -> Log {
    let mut write = log.write.clone();
    let len = write.inputs[input].len();
    write.inputs[input] = compare.random.bytes(len);
    Log::of(log.combo, write)
}

/// Of another content key: the MAC of SIV_CTRMAC does not cover it, so that other
/// bytes are given. Of another MAC master key: SIV_GCM has none.
fn other_keys(compare: &mut Compare, combo: Combo) {
    for len in [40, CHUNK_LEN + 40] {
        let log = Log::new(&mut compare.random, combo, len);
        let reader = Reader::new(compare, &log);
        let out = compare.random.bytes(100);
        let by_content_key = rewritten(compare, &log, 2);
        let mut write = log.write.clone();
        write.inputs[0][32..64].fill(0x5a);
        let by_mac_key = Log::of(combo, write);

        let from = len - 40;
        let part = &log.cleartext()[from..];
        let [content_key, mac_key] = [by_content_key, by_mac_key].map(|other| {
            let reader = reader.with_file(other.file);
            reader.reading(from as u64, 40, &out)
        });
        let chunk = Some((from / CHUNK_LEN) as u64);
        match combo {
            Combo::SivGcm => {
                assert_eq!(refused(compare, &content_key, 10), chunk);
                gives(compare, &mac_key, part);
            }
            Combo::SivCtrmac => {
                let end = compare.end(&content_key);
                assert_eq!((end.row, end.length), (0, 40));
                assert!(!end.buffers[0].starts_with(part), "the same cleartext");
                assert_eq!(refused(compare, &mac_key, 10), chunk);
            }
        }
    }
}

/// It is that of the file that is lent for the read, and the keys are the same.
fn other_nonce(compare: &mut Compare, combo: Combo) {
    for len in [40, CHUNK_LEN + 40] {
        let log = Log::new(&mut compare.random, combo, len);
        let reader = Reader::new(compare, &log);
        let second = rewritten(compare, &log, 1);
        let read = reader.with_file(second.file.clone());
        let end = read.read(compare, 3, 30, &[7; 35]);
        assert_eq!(end.row, 0);
        assert!(end.buffers[0].starts_with(&log.cleartext()[3..33]));

        // The header of one file and the chunks of the other.
        let header = sizes(combo).header;
        let mixed = [&log.file[..header], &second.file[header..]].concat();
        let read = reader.with_file(mixed);
        let end = read.read(compare, 3, 30, &[7; 35]);
        assert_eq!((end.row, end.at), (10, 0));
    }
}

/// Each chunk of three is good only at its own place.
fn moved(compare: &mut Compare, combo: Combo) {
    let sizes = sizes(combo);
    let log = Log::new(&mut compare.random, combo, 3 * CHUNK_LEN);
    let good = Reader::new(compare, &log);
    for order in [[0, 2, 1], [1, 0, 2], [0, 1, 1], [2, 1, 0]] {
        let mut file = log.file[..sizes.header].to_vec();
        for i in order {
            file.extend(&log.file[sizes.header + i * sizes.chunk..][..sizes.chunk]);
        }
        let reader = good.with_file(file);
        for (number, chunk) in order.into_iter().enumerate() {
            let from = (number * CHUNK_LEN) as u64 + 7;
            let end = reader.read(compare, from, 9, &[7; 12]);
            let bad = (chunk != number).then_some(number as u64);
            assert_eq!(end.row, if bad.is_some() { 10 } else { 0 });
            assert_eq!(end.place(), bad);
        }
    }
}

/// A range is inside if it is so in the file that is lent for the read.
fn other_lengths(compare: &mut Compare, combo: Combo) {
    let log = Log::new(&mut compare.random, combo, 2 * CHUNK_LEN + 40);
    let reader = Reader::new(compare, &log);
    let mut write = log.write.clone();
    write.inputs[4].truncate(CHUNK_LEN + 9);
    write.inputs[3].truncate(2 * sizes(combo).nonce);
    write.buffers[0].resize(sizes(combo).file(CHUNK_LEN + 9), 0);
    let shorter = Log::of(combo, write);
    let short = reader.with_file(shorter.file.clone());
    let of_shorter = Reader::new(compare, &shorter);
    let long = of_shorter.with_file(log.file.clone());
    for (from, count, rows) in [
        (0, CHUNK_LEN + 9, [0, 0]),
        (CHUNK_LEN - 5, 14, [0, 0]),
        (CHUNK_LEN, 10, [6, 0]),
        (CHUNK_LEN + 9, 0, [0, 0]),
        (CHUNK_LEN + 10, 0, [6, 0]),
        (2 * CHUNK_LEN, 40, [6, 0]),
        (2 * CHUNK_LEN, 41, [6, 6]),
    ] {
        for (reader, row) in [&short, &long].into_iter().zip(rows) {
            let out = compare.random.bytes(count + 3);
            let end = reader.read(compare, from as u64, count as u64, &out);
            assert_eq!(end.row, row);
        }
    }
}

/// Row 4 where the reader's combo has no file of this length, and else row 10,
/// or row 6 where it takes the file for a shorter one.
fn other_combo(compare: &mut Compare, combo: Combo) {
    let mut rows = [0; 3];
    let lens = (1..100).chain(32_729..32_760).chain([40_000, 65_537]);
    for len in lens {
        let log = Log::new(&mut compare.random, other(combo), len);
        let mut keys = log.reader_keys();
        keys[COMBO_PLACE] = combo.number();
        let read = reading(&log.file, &keys, [len as u64 / 2, 1], &[7]);
        let row = compare.row(&read);
        let place = [4, 6, 10].into_iter().position(|one| one == row);
        rows[place.expect("one of three")] += 1;
        refused(compare, &read, row);
    }
    assert!(rows[0] > 3 && rows[2] > 3, "{rows:?}");
}
