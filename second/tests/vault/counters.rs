//! Counters of SIV_CTRMAC that carry out of some of their bytes, up to the one
//! that goes from all ones to zero.

use crate::case::{Call, Case};
use crate::compare::Compare;
use crate::make::{self, before_carry};
use crate::part::{Part, Run::Once};
use second::vault::{Combo, CHUNK_LEN};

pub const PARTS: &[Part] = &[
    ("counters: headers", Once(headers)),
    ("counters: chunks", Once(chunks)),
    ("counters: files", Once(files)),
    ("counters: every range of a short file", Once(short_ranges)),
    ("counters: ranges at the border", Once(ranges)),
];

/// So many of the counter's last bytes overflow. All of them wrap.
const BYTES: [usize; 6] = [1, 2, 4, 8, 12, 16];

/// The blocks of a whole chunk.
const BLOCKS: usize = CHUNK_LEN / 16;

/// Numbers of counters before the border: each for the first blocks, some in
/// the middle, and the last ones.
fn places() -> impl Iterator<Item = usize> {
    let last = BLOCKS - 5..=BLOCKS + 1;
    (0..=9).chain([100, 1023, 1024, 1025]).chain(last)
}

/// Fails unless it is written, and opens to what went in.
fn there_and_back(compare: &mut Compare, write: &Case, open: Call, cleartext: usize) {
    let end = compare.end(write);
    assert_eq!(end.row, 0);
    let written = end.buffers[0][..end.length as usize].to_vec();
    let lent = match open {
        Call::OpenChunk => &write.inputs[..3],
        _ => &write.inputs[..1],
    };
    let case = Case {
        call: open,
        inputs: [lent, &[written]].concat(),
        numbers: write.numbers.clone(),
        buffers: vec![vec![0xa5; write.inputs[cleartext].len()]],
    };
    let end = compare.end(&case);
    assert_eq!(end.row, 0);
    assert!(
        end.buffers[0] == write.inputs[cleartext],
        "another cleartext"
    );
}

/// A header has three blocks.
fn headers(compare: &mut Compare) {
    for bytes in BYTES {
        for counters in 0..=4 {
            let mut write = make::write_header(&mut compare.random, Combo::SivCtrmac);
            write.inputs[1] = before_carry(&mut compare.random, bytes, counters);
            there_and_back(compare, &write, Call::OpenHeader, 2);
        }
    }
}

fn chunks(compare: &mut Compare) {
    for bytes in BYTES {
        for counters in places() {
            let len = if counters < 10 { 155 } else { CHUNK_LEN - 1 };
            let mut write = make::write_chunk(&mut compare.random, Combo::SivCtrmac, len);
            write.inputs[3] = before_carry(&mut compare.random, bytes, counters);
            there_and_back(compare, &write, Call::OpenChunk, 4);
        }
    }
}

/// Of the header and of both chunks.
fn files(compare: &mut Compare) {
    for counters in places() {
        let mut write = make::write_file(&mut compare.random, Combo::SivCtrmac, CHUNK_LEN + 40);
        write.inputs[1] = before_carry(&mut compare.random, 16, counters % 4);
        write.inputs[3] = [
            before_carry(&mut compare.random, 16, counters),
            before_carry(&mut compare.random, 8, counters % 4),
        ]
        .concat();
        there_and_back(compare, &write, Call::OpenFile, 4);
    }
}

/// The file of a cleartext with this nonce for its first chunk, and the
/// cleartext. The header's counter wraps as well.
fn file(compare: &mut Compare, len: usize, nonce: &[u8]) -> (Case, Vec<u8>) {
    let mut write = make::write_file(&mut compare.random, Combo::SivCtrmac, len);
    let counters = compare.random.below(4);
    write.inputs[1] = before_carry(&mut compare.random, 16, counters);
    let others = compare.random.bytes(write.inputs[3].len() - 16);
    write.inputs[3] = [nonce, &others].concat();
    let mut read = make::open_written_file(&mut compare.random, &write);
    read.call = Call::ReadRange;
    (read, write.inputs.swap_remove(4))
}

/// Fails unless the read gives this part of the cleartext.
fn part(compare: &mut Compare, read: &mut Case, cleartext: &[u8]) {
    let [from, count] = read.numbers[..] else {
        panic!("not a range");
    };
    let end = compare.end(read);
    assert_eq!((end.row, end.length), (0, count));
    let part = &cleartext[from as usize..][..count as usize];
    assert!(end.buffers[0].starts_with(part), "another cleartext");
}

/// Ranges that start before the border, at it and behind it.
fn short_ranges(compare: &mut Compare) {
    for counters in 0..=5 {
        let nonce = before_carry(&mut compare.random, 16, counters);
        let (mut read, cleartext) = file(compare, 70, &nonce);
        for from in 0..=70 {
            for end in from..=70 {
                read.numbers = vec![from, end - from];
                part(compare, &mut read, &cleartext);
            }
        }
    }
}

fn ranges(compare: &mut Compare) {
    for bytes in BYTES {
        for counters in [1, 4, 100, BLOCKS - 1] {
            let nonce = before_carry(&mut compare.random, bytes, counters);
            let (mut read, cleartext) = file(compare, CHUNK_LEN + 40, &nonce);
            let border = 16 * counters as u64;
            for from in [0, border - 16, border - 1, border, border + 1] {
                for end in [border, border + 1, border + 16, border + 17, 32_808] {
                    if from <= end {
                        read.numbers = vec![from, end - from];
                        part(compare, &mut read, &cleartext);
                    }
                }
            }
        }
    }
}
