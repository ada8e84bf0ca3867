//! Ranges of a cleartext, and the chunks that they cover.

use super::{Combo, Refusal, CHUNK_LEN};
use std::ops::Range;

/// A range by its start and its length, if it is inside a cleartext of this
/// length (row 6).
pub fn inside(from: u64, count: u64, length: u64) -> Result<Range<usize>, Refusal> {
    let end = from.checked_add(count).ok_or(Refusal::Range)?;
    Refusal::Range.unless(end <= length)?;
    Ok(from as usize..end as usize)
}

/// How many chunks a range has a part of, by its start and its length alone: no
/// cleartext need be as long.
pub fn covered(from: u64, count: u64) -> u128 {
    let [from, count, chunk] = [from, count, CHUNK_LEN as u64].map(u128::from);
    match count {
        0 => 0,
        _ => (from + count).div_ceil(chunk) - from / chunk,
    }
}

/// The chunks that have a part of the range, each with its number and with
/// that part, counted from the chunk's own start.
pub fn covering<C: AsRef<[u8]>>(
    combo: Combo,
    chunks: impl Iterator<Item = C>,
    range: Range<usize>,
) -> impl Iterator<Item = (u64, C, Range<usize>)> {
    chunks.enumerate().filter_map(move |(number, chunk)| {
        let start = number * CHUNK_LEN;
        let len = chunk.as_ref().len() - combo.overhead();
        let from = range.start.saturating_sub(start);
        let end = range.end.saturating_sub(start).min(len);
        (from < end).then_some((number as u64, chunk, from..end))
    })
}

#[cfg(test)]
mod tests {
    use super::*;

    #[test]
    fn sums_that_would_wrap() {
        assert_eq!(inside(u64::MAX, 0, u64::MAX), Ok(usize::MAX..usize::MAX));
        for (from, count) in [(u64::MAX, 1), (1, u64::MAX), (u64::MAX, u64::MAX)] {
            assert_eq!(inside(from, count, u64::MAX), Err(Refusal::Range));
        }
    }

    #[test]
    fn numbers_of_chunks() {
        for (from, count, chunks) in [
            (0, 0, 0),
            (32_767, 0, 0),
            (u64::MAX, 0, 0),
            (0, 1, 1),
            (0, 32_768, 1),
            (0, 32_769, 2),
            (1, 32_768, 2),
            (32_767, 1, 1),
            (32_767, 2, 2),
            (32_768, 1, 1),
            (32_767, 32_770, 3),
            (u64::MAX, 1, 1),
            (u64::MAX, 2, 2),
            (u64::MAX, 32_769, 2),
            (u64::MAX, 32_770, 3),
            (u64::MAX - 32_767, 32_768, 1),
            (u64::MAX - 32_768, 32_768, 2),
            (0, u64::MAX, 1 << 49),
            (u64::MAX, u64::MAX, (1 << 49) + 1),
        ] {
            assert_eq!(covered(from, count), chunks, "{from} {count}");
        }
    }

    /// As many as there are where the range is inside.
    #[test]
    fn as_many_as_there_are() {
        let stored = vec![0; 3 * Combo::SivGcm.stored_chunk_len()];
        let edges = [
            0, 1, 32_767, 32_768, 32_769, 65_535, 65_536, 65_537, 98_303, 98_304,
        ];
        for (i, &from) in edges.iter().enumerate() {
            for &end in &edges[i..] {
                let chunks = stored.chunks(Combo::SivGcm.stored_chunk_len());
                let covering = covering(Combo::SivGcm, chunks, from..end);
                let number = covered(from as u64, (end - from) as u64);
                assert_eq!(covering.count() as u128, number);
            }
        }
    }
}
