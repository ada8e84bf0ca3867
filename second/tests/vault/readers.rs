//! Readers: how they are made, and what is read through them.

mod by_hand;
mod counters;
mod damage;
mod kept;
mod lengths;
mod longest;
mod made;
mod mended;
mod none;
mod ranges;
mod rows;
mod series;
mod strange;

use crate::case::{Call, Case, End};
use crate::compare::Compare;
use crate::format::READER_KEYS;
use crate::log::Log;
use crate::part::Part;

pub const PARTS: [&[Part]; 13] = [
    longest::PARTS,
    made::PARTS,
    none::PARTS,
    ranges::PARTS,
    lengths::PARTS,
    damage::PARTS,
    strange::PARTS,
    by_hand::PARTS,
    rows::PARTS,
    mended::PARTS,
    series::PARTS,
    kept::PARTS,
    counters::PARTS,
];

/// A reader that was made, with the vault that was lent for it.
pub struct Reader {
    vault: Vec<u8>,
    file: Vec<u8>,
    pub keys: Vec<u8>,
}

impl Reader {
    /// Fails unless both programs make the reader of the log, with its keys.
    pub fn new(compare: &mut Compare, log: &Log) -> Self {
        let room = compare.random.bytes(READER_KEYS);
        let mut end = compare.end(&opening(log.vault(), &log.file, &room));
        let length = log.cleartext().len() as u64;
        assert_eq!((end.row, end.length, end.place()), (0, length, None));
        let keys = end.buffers.swap_remove(0);
        assert!(keys == log.reader_keys(), "other keys");
        Reader {
            vault: log.vault().to_vec(),
            file: log.file.clone(),
            keys,
        }
    }

    /// The same keys with another file's bytes.
    fn with_file(&self, file: Vec<u8>) -> Self {
        Reader {
            vault: self.vault.clone(),
            file,
            keys: self.keys.clone(),
        }
    }

    /// The call that reads a range through it.
    fn reading(&self, from: u64, count: u64, out: &[u8]) -> Case {
        reading(&self.file, &self.keys, [from, count], out)
    }

    /// Reads a range through it, and fails unless this ends as the range read
    /// does, in all that it gives and in every byte of the buffer.
    fn read(&self, compare: &mut Compare, from: u64, count: u64, out: &[u8]) -> End {
        let end = compare.end(&self.reading(from, count, out));
        let range = compare.end(&range_read(&self.vault, &self.file, [from, count], out));
        assert!(end == range, "{from} {count}: not as the range read");
        end
    }
}

/// The call that makes a reader in this buffer.
pub fn opening(vault: &[u8], file: &[u8], keys: &[u8]) -> Case {
    Case {
        call: Call::OpenReader,
        inputs: vec![vault.to_vec(), file.to_vec()],
        numbers: vec![],
        buffers: vec![keys.to_vec()],
    }
}

/// The call that reads a range of a file with this vault.
pub fn range_read(vault: &[u8], file: &[u8], range: [u64; 2], out: &[u8]) -> Case {
    Case {
        call: Call::ReadRange,
        inputs: vec![vault.to_vec(), file.to_vec()],
        numbers: range.to_vec(),
        buffers: vec![out.to_vec()],
    }
}

/// The call that reads a range of a file with these keys.
pub fn reading(file: &[u8], keys: &[u8], range: [u64; 2], out: &[u8]) -> Case {
    Case {
        call: Call::ReaderRead,
        inputs: vec![file.to_vec(), keys.to_vec()],
        numbers: range.to_vec(),
        buffers: vec![out.to_vec()],
    }
}

/// The rows by which a file is refused a reader.
const ROWS_OF_FILES: [u32; 2] = [4, 9];

/// Fails unless no reader is made, by this row: the keys of a refused file are
/// then those of the reader of no bytes, if there is room, and any other row
/// leaves the buffer. Gives what stands in it.
pub fn not_made(compare: &mut Compare, open: &Case, row: u32) -> Vec<u8> {
    let mut expected = open.buffers[0].clone();
    if ROWS_OF_FILES.contains(&row) {
        if let Some(front) = expected.first_chunk_mut::<READER_KEYS>() {
            front.fill(0);
        }
    }
    let mut end = compare.end(open);
    let [length, ..] = open.old_results();
    assert_eq!((end.row, end.length, end.place()), (row, length, None));
    assert!(end.buffers[0] == expected, "not the reader of no bytes");
    end.buffers.swap_remove(0)
}

/// Fails unless the read is refused with this row, and leaves its buffer. Row 10
/// has a chunk's number.
fn refused(compare: &mut Compare, read: &Case, row: u32) -> Option<u64> {
    let end = compare.end(read);
    let [length, ..] = read.old_results();
    assert_eq!((end.row, end.length), (row, length));
    assert_eq!(end.place().is_some(), row == 10);
    assert!(end.buffers == read.buffers, "changed a buffer");
    end.place()
}

/// Fails unless the read gives this part of a cleartext, and leaves the rest of
/// its buffer.
fn gives(compare: &mut Compare, read: &Case, part: &[u8]) {
    let end = compare.end(read);
    let length = part.len() as u64;
    assert_eq!((end.row, end.length, end.place()), (0, length, None));
    let (front, rest) = end.buffers[0].split_at(part.len());
    assert!(front == part, "another cleartext");
    assert!(rest == &read.buffers[0][part.len()..], "changed the rest");
}
