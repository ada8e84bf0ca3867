//! Files that are damaged.

use crate::case::{Case, End};
use crate::compare::Compare;
use crate::fault::resize;
use crate::format::{sizes, Sizes};
use crate::make;
use crate::part::{Part, Run::Each};
use second::vault::{Combo, CHUNK_LEN};

pub const PARTS: &[Part] = &[
    ("files: every bit of a short file", Each(bits)),
    ("files: damage in every part", Each(damage)),
    ("files: cut and extended", Each(cut)),
    ("files: chunks in another order", Each(moved_chunks)),
    ("files: chunks of another file", Each(strange_chunks)),
];

fn flipped(case: &Case, place: usize, mask: u8) -> Case {
    let mut damaged = case.clone();
    damaged.inputs[1][place] ^= mask;
    damaged
}

fn bits(compare: &mut Compare, combo: Combo) {
    let header = sizes(combo).header;
    for len in [0, 1, 40] {
        let case = make::open_file(&mut compare.random, combo, len);
        assert_eq!(compare.row(&case), 0);
        for place in 0..case.inputs[1].len() {
            for bit in 0..8 {
                let row = compare.row(&flipped(&case, place, 1 << bit));
                assert_eq!(row, if place < header { 9 } else { 10 });
            }
        }
    }
}

/// The first and last bytes of the nonce, the ciphertext and the tag, of the
/// header and of each of three chunks; and some places between.
fn damage(compare: &mut Compare, combo: Combo) {
    let Sizes {
        nonce,
        header,
        overhead,
        chunk,
        ..
    } = sizes(combo);
    let tag = overhead - nonce;
    let case = make::open_file(&mut compare.random, combo, 2 * CHUNK_LEN + 50);
    let file = case.inputs[1].len();
    let mut places = vec![0, nonce - 1, nonce, nonce + 7, nonce + 8];
    places.extend([header - tag - 1, header - tag, header - 1]);
    for start in [header, header + chunk, header + 2 * chunk] {
        let end = file.min(start + chunk);
        places.extend([start, start + nonce - 1, start + nonce]);
        places.extend([end - tag - 1, end - tag, end - 1]);
        places.extend((0..4).map(|_| start + compare.random.below(end - start)));
    }
    for place in places {
        let damaged = flipped(&case, place, 0x10);
        // With the last chunk damaged as well, the lowest number is given.
        let more = flipped(&damaged, file - 20, 0x20);
        for damaged in [damaged, more] {
            let End { row, at, .. } = compare.end(&damaged);
            match place.checked_sub(header) {
                None => assert_eq!(row, 9),
                Some(place) => assert_eq!((row, at), (10, (place / chunk) as u64)),
            }
        }
    }
}

fn cut(compare: &mut Compare, combo: Combo) {
    let sizes = sizes(combo);
    for len in [0, 1, 30] {
        let case = make::open_file(&mut compare.random, combo, len);
        let file = case.inputs[1].len();
        for cut in 0..file + sizes.overhead + 12 {
            let mut other = case.clone();
            resize(&mut other.inputs[1], cut, &mut compare.random);
            resize(&mut other.buffers[0], 200, &mut compare.random);
            let row = match cut {
                _ if cut == file || cut == sizes.header => 0,
                _ if cut <= sizes.header + sizes.overhead => 4,
                _ => 10,
            };
            assert_eq!(compare.row(&other), row, "{len} {cut}");
        }
    }
    let case = make::open_file(&mut compare.random, combo, CHUNK_LEN + 10);
    let (first, whole) = (sizes.header + sizes.chunk, case.inputs[1].len());
    for cut in first - 30..whole + 10 {
        let mut other = case.clone();
        resize(&mut other.inputs[1], cut, &mut compare.random);
        let End { row, at, .. } = compare.end(&other);
        match cut {
            _ if cut < first => assert_eq!((row, at), (10, 0)),
            _ if cut == first || cut == whole => assert_eq!(row, 0),
            _ if cut <= first + sizes.overhead => assert_eq!(row, 4),
            _ => assert!(row == 7 || (row, at) == (10, 1)),
        }
    }
}

/// A whole chunk of a file, as it is stored.
fn chunk(case: &Case, combo: Combo, i: usize) -> &[u8] {
    let sizes = sizes(combo);
    &case.inputs[1][sizes.header + i * sizes.chunk..][..sizes.chunk]
}

fn moved_chunks(compare: &mut Compare, combo: Combo) {
    let sizes = sizes(combo);
    let case = make::open_file(&mut compare.random, combo, 3 * CHUNK_LEN);
    for (order, row, at) in [
        ([0, 1, 2], 0, None),
        ([0, 2, 1], 10, Some(1)),
        ([1, 0, 2], 10, Some(0)),
        ([0, 1, 1], 10, Some(2)),
        ([0, 0, 2], 10, Some(1)),
    ] {
        let mut other = case.clone();
        other.inputs[1].truncate(sizes.header);
        for i in order {
            other.inputs[1].extend(chunk(&case, combo, i));
        }
        let end = compare.end(&other);
        assert_eq!(end.row, row);
        assert!(at.is_none_or(|at| at == end.at));
    }
    // Without the last chunk it is another file, and opens.
    let mut shorter = case.clone();
    shorter.inputs[1].truncate(sizes.header + 2 * sizes.chunk);
    let end = compare.end(&shorter);
    assert_eq!((end.row, end.length), (0, 2 * 32_768));
}

/// Two files that differ in their header nonces alone.
fn strange_chunks(compare: &mut Compare, combo: Combo) {
    let sizes = sizes(combo);
    let mut write = make::write_file(&mut compare.random, combo, 2 * CHUNK_LEN);
    let one = make::open_written_file(&mut compare.random, &write);
    write.inputs[1][0] ^= 1;
    let other = make::open_written_file(&mut compare.random, &write);
    for i in 0..2 {
        let mut mixed = one.clone();
        let start = sizes.header + i * sizes.chunk;
        mixed.inputs[1][start..start + sizes.chunk].copy_from_slice(chunk(&other, combo, i));
        let End { row, at, .. } = compare.end(&mixed);
        assert_eq!((row, at), (10, i as u64));
    }
}
