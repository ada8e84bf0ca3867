//! Reading a range of a file, whether its header is opened for it or was before.

use super::chunk::ChunkCipher;
use super::range::{covering, inside};
use super::sizes::room;
use super::{Combo, Refusal};

/// Writes `count` bytes of the cleartext, after its first `from` bytes. The
/// cipher of the chunks is had by the header, once rows 4, 6 and 7 are tried.
pub fn read<'a>(
    combo: Combo,
    file: &'a [u8],
    from: u64,
    count: u64,
    out: &mut [u8],
    cipher_of: impl FnOnce(&'a [u8]) -> Result<ChunkCipher<'a>, Refusal>,
) -> Result<usize, Refusal> {
    let length = combo.cleartext_length(file.len() as u64)?;
    let range = inside(from, count, length)?;
    room(out, range.len())?;

    let (header, chunks) = file.split_at(combo.header_len());
    let cipher = cipher_of(header)?;
    let chunks = chunks.chunks(combo.stored_chunk_len());
    for (number, chunk, _) in covering(combo, chunks.clone(), range.clone()) {
        cipher.verify(number, chunk)?;
    }
    let mut rest = &mut out[..range.len()];
    for (_, chunk, part) in covering(combo, chunks, range.clone()) {
        let (place, later) = rest.split_at_mut(part.len());
        cipher.decrypt_part(chunk, part.start, place);
        rest = later;
    }
    Ok(range.len())
}
