//! Nonces of SIV_CTRMAC from which the counter soon wraps or carries.

use super::Reader;
use crate::compare::Compare;
use crate::log::Log;
use crate::make::{self, before_carry};
use crate::part::{Part, Run::Once};
use second::vault::{Combo, CHUNK_LEN};

pub const PARTS: &[Part] = &[("readers: counters", Once(counters))];

/// Of the header and of the first chunk. The range begins before the border, at
/// it and behind it.
fn counters(compare: &mut Compare) {
    for bytes in [1, 4, 8, 16] {
        for counters in [1, 4, 100, CHUNK_LEN / 16 - 1] {
            let mut write = make::write_file(&mut compare.random, Combo::SivCtrmac, CHUNK_LEN + 40);
            write.inputs[1] = before_carry(&mut compare.random, 16, counters % 4);
            let first = before_carry(&mut compare.random, bytes, counters);
            write.inputs[3][..16].copy_from_slice(&first);
            let log = Log::of(Combo::SivCtrmac, write);
            let reader = Reader::new(compare, &log);
            let border = 16 * counters;
            for from in [0, border - 16, border - 1, border, border + 1] {
                for end in [border, border + 1, border + 17, CHUNK_LEN + 20] {
                    if from <= end {
                        part(compare, &log, &reader, from, end);
                    }
                }
            }
        }
    }
}

fn part(compare: &mut Compare, log: &Log, reader: &Reader, from: usize, end: usize) {
    let part = &log.cleartext()[from..end];
    let (from, count) = (from as u64, part.len() as u64);
    let read = reader.read(compare, from, count, &vec![7; part.len()]);
    assert_eq!((read.row, read.length), (0, count));
    assert!(read.buffers[0] == part, "another cleartext");
}
