//! Readers whose keys no call wrote.

use super::{gives, reading, refused};
use crate::compare::Compare;
use crate::fault::resize;
use crate::format::{combo_of_keys, COMBO_PLACE, READER_KEYS};
use crate::log::Log;
use crate::part::{Part, Run::Each};
use second::vault::Combo;

pub const PARTS: &[Part] = &[
    ("readers by hand: every size of keys", Each(sizes)),
    ("readers by hand: every last byte", Each(last_bytes)),
    ("readers by hand: every bit of the keys", Each(bits)),
    ("readers by hand: any keys", Each(any_keys)),
];

/// The log that is read, and which of its bytes.
const LEN: usize = 60;
const RANGE: [u64; 2] = [5, 40];
const OUT: [u8; 45] = [7; 45];

fn part(log: &Log) -> &[u8] {
    &log.cleartext()[5..45]
}

/// Row 1 for all but 65 bytes, also where the file is wrong or the range.
fn sizes(compare: &mut Compare, combo: Combo) {
    let log = Log::new(&mut compare.random, combo, LEN);
    let right = log.reader_keys();
    for len in (0..=140).chain([1000, 256 + 65, 65_536 + 65]) {
        let mut keys = right.clone();
        resize(&mut keys, len, &mut compare.random);
        if len == READER_KEYS {
            gives(compare, &reading(&log.file, &keys, RANGE, &OUT), part(&log));
            continue;
        }
        for number in [0, 1, 2, 3] {
            if let Some(last) = keys.last_mut() {
                *last = number;
            }
            refused(compare, &reading(&log.file, &keys, RANGE, &OUT), 1);
            refused(compare, &reading(&[], &keys, [u64::MAX, 1], &[]), 1);
        }
    }
}

/// Row 17 before all that is wrong with the file, the range or the buffer; and
/// row 4 for 0.
fn last_bytes(compare: &mut Compare, combo: Combo) {
    let log = Log::new(&mut compare.random, combo, LEN);
    let mut keys = log.reader_keys();
    for byte in 0..=255 {
        keys[COMBO_PLACE] = byte;
        let read = reading(&log.file, &keys, RANGE, &OUT);
        let wrong = [
            reading(&[], &keys, RANGE, &OUT),
            reading(&log.file, &keys, [u64::MAX, 1], &OUT),
            reading(&log.file, &keys, RANGE, &[]),
        ];
        match combo_of_keys(&keys) {
            Some(of_keys) if of_keys == combo => gives(compare, &read, part(&log)),
            Some(_) => assert!([4, 6, 10].contains(&compare.row(&read))),
            None => {
                let row = if byte == 0 { 4 } else { 17 };
                refused(compare, &read, row);
                for read in &wrong {
                    refused(compare, read, row);
                }
            }
        }
    }
}

/// Of the content key, then of the MAC master key. The tags of SIV_GCM do not go
/// by the second, and may have any bytes there; those of SIV_CTRMAC do not go by
/// the first, so that other bytes are given. An empty range goes by neither.
fn bits(compare: &mut Compare, combo: Combo) {
    let log = Log::new(&mut compare.random, combo, LEN);
    for bit in 0..512 {
        let mut keys = log.reader_keys();
        keys[bit / 8] ^= 1 << (bit % 8);
        gives(compare, &reading(&log.file, &keys, [3, 0], &OUT), &[]);
        let read = reading(&log.file, &keys, RANGE, &OUT);
        match (combo, bit < 256) {
            (Combo::SivGcm, false) => gives(compare, &read, part(&log)),
            (Combo::SivCtrmac, true) => {
                let end = compare.end(&read);
                assert_eq!((end.row, end.length), (0, 40));
                assert!(!end.buffers[0].starts_with(part(&log)), "the same");
            }
            _ => assert_eq!(refused(compare, &read, 10), Some(0)),
        }
    }
}

/// Random ones, and those of one byte: no chunk is good. Random bytes where
/// SIV_GCM has no MAC key.
fn any_keys(compare: &mut Compare, combo: Combo) {
    let log = Log::new(&mut compare.random, combo, LEN);
    let random = (0..200).map(|_| compare.random.bytes(READER_KEYS));
    let same = [0, 1, 0x80, 0xff].map(|byte| vec![byte; READER_KEYS]);
    for mut keys in random.collect::<Vec<_>>().into_iter().chain(same) {
        keys[COMBO_PLACE] = combo.number();
        let read = reading(&log.file, &keys, RANGE, &OUT);
        assert_eq!(refused(compare, &read, 10), Some(0));
        gives(compare, &reading(&log.file, &keys, [60, 0], &[]), &[]);

        let right = log.reader_keys();
        keys[..32].copy_from_slice(&right[..32]);
        let read = reading(&log.file, &keys, RANGE, &OUT);
        match combo {
            Combo::SivGcm => gives(compare, &read, part(&log)),
            Combo::SivCtrmac => assert_eq!(refused(compare, &read, 10), Some(0)),
        }
    }
}
