//! How a read must end, by which of the bytes that are lent for it were written
//! so.

use crate::case::{Call, Case, End};
use crate::format::{sizes, Sizes, COMBO_PLACE, READER_KEYS, VAULT};
use crate::log::Log;
use crate::{make, predict};
use second::vault::{Combo, Refusal, CHUNK_LEN};

/// The end of a read of any bytes as the log's file. The vault or the keys are
/// the log's, or refused, or such that no header or no chunk is good with them.
pub fn end(log: &Log, read: &Case) -> End {
    let mut buffers = read.buffers.clone();
    let answer = part(log, read).map(|part| {
        buffers[0][..part.len()].copy_from_slice(part);
        (part.len() as u64, None)
    });
    predict::end_of(read, answer, buffers)
}

/// Whether a place is behind the cleartext, if what is lent has one.
pub fn is_behind(read: &Case, place: u128) -> bool {
    let fits = |combo| sizes(combo).fits(read.file().len());
    read.combo().is_some_and(fits) && place > make::cleartext_len(read) as u128
}

/// What is read, or why nothing is.
fn part<'a>(log: &'a Log, read: &Case) -> Result<&'a [u8], Refusal> {
    let sizes = sizes(combo(read)?);
    let (file, (from, count)) = (read.file(), read.range());
    if !sizes.fits(file.len()) {
        return Err(Refusal::Length);
    }
    if is_behind(read, u128::from(from) + u128::from(count)) {
        return Err(Refusal::Range);
    }
    if count > read.buffers[0].len() as u64 {
        return Err(Refusal::Room);
    }
    let is_opened = is_opened(log, read, &sizes);
    if read.call == Call::ReadRange && !is_opened {
        return Err(Refusal::Header);
    }
    let (start, count) = (from as usize, count as usize);
    let first = start / CHUNK_LEN;
    let is_good = |&number: &usize| {
        is_opened && chunk(file, &sizes, number) == chunk(&log.file, &sizes, number)
    };
    match (first..first + make::covered(from, count)).find(|number| !is_good(number)) {
        Some(number) => Err(Refusal::Chunk(number as u64)),
        // Of a longer file, an empty range can be behind what was written.
        None => Ok(log.cleartext().get(start..start + count).unwrap_or(&[])),
    }
}

/// The combo that is lent, or why none is.
fn combo(read: &Case) -> Result<Combo, Refusal> {
    let (record, size) = match read.call {
        Call::ReaderRead => (&read.inputs[1], READER_KEYS),
        _ => (&read.inputs[0], VAULT),
    };
    match read.combo() {
        Some(combo) => Ok(combo),
        None if record.len() != size => Err(Refusal::KeyOrNonceSize),
        None if size == READER_KEYS && record[COMBO_PLACE] == 0 => Err(Refusal::Length),
        None => Err(Refusal::Combo),
    }
}

/// Whether the header is good. With a reader, its nonce and the keys must be.
fn is_opened(log: &Log, read: &Case, sizes: &Sizes) -> bool {
    let is_written = |len: usize| read.file()[..len] == log.file[..len];
    match read.call {
        Call::ReaderRead => read.inputs[1] == log.reader_keys() && is_written(sizes.nonce),
        _ => read.inputs[0] == log.vault() && is_written(sizes.header),
    }
}

/// A chunk as it is stored.
fn chunk<'a>(file: &'a [u8], sizes: &Sizes, number: usize) -> Option<&'a [u8]> {
    file[sizes.header..].chunks(sizes.chunk).nth(number)
}
