//! Whole files.

use crate::case::{Call, Case};
use crate::compare::Compare;
use crate::fault::resize;
use crate::format::{self, LONGEST_CLEARTEXT};
use crate::make;
use crate::part::{Part, Run::Each};
use second::vault::{Combo, CHUNK_LEN};

pub const PARTS: &[Part] = &[
    ("files: lengths at edges", Each(edges)),
    ("files: every short length", Each(short_lengths)),
    ("files: every length around an edge", Each(around_edges)),
    ("files: number of nonces", Each(nonces)),
    ("files: repeated nonces", Each(repeated_nonces)),
    (
        "files: repeated nonces from elsewhere",
        Each(nonces_from_elsewhere),
    ),
    ("files: sizes of keys and buffers", Each(sizes)),
    ("files: reserved bytes of the header", Each(reserved)),
];

/// Lengths of one chunk, two and three, and one byte more or less.
const EDGES: [usize; 12] = [
    0, 1, 2, 32_767, 32_768, 32_769, 65_535, 65_536, 65_537, 98_303, 98_304, 98_305,
];

fn edges(compare: &mut Compare, combo: Combo) {
    for len in EDGES {
        written_opens(compare, combo, len);
    }
}

fn short_lengths(compare: &mut Compare, combo: Combo) {
    for len in 0..200 {
        written_opens(compare, combo, len);
    }
}

fn written_opens(compare: &mut Compare, combo: Combo, len: usize) {
    let write = make::write_file(&mut compare.random, combo, len);
    assert_eq!(compare.row(&write), 0);
    let open = make::open_file(&mut compare.random, combo, len);
    let end = compare.end(&open);
    assert_eq!((end.row, end.length), (0, len as u64));
}

/// Bytes of each length around those of no cleartext, of a chunk's overhead, of
/// one chunk and of the most chunks: row 4, or the header is wrong.
fn around_edges(compare: &mut Compare, combo: Combo) {
    let sizes = format::sizes(combo);
    let mut open = make::open_file(&mut compare.random, combo, 0);
    let mut read = make::read_range(&mut compare.random, combo, 0, 0, 0);
    let one_chunk = sizes.header + sizes.chunk;
    let edges = [
        sizes.header,
        sizes.header + sizes.overhead,
        one_chunk - sizes.overhead,
        one_chunk,
        one_chunk + sizes.overhead,
    ];
    let near = edges.into_iter().flat_map(|edge| edge - 3..=edge + 3);
    let longest = sizes.longest_file - 1..=sizes.longest_file + 1;
    let room = compare.random.bytes(LONGEST_CLEARTEXT);
    for len in near.chain(longest) {
        let behind = len.checked_sub(sizes.header);
        let rest = behind.map(|behind| behind % sizes.chunk);
        let fits = rest.is_some_and(|rest| rest == 0 || rest > sizes.overhead);
        let row = if fits && len <= sizes.longest_file {
            9
        } else {
            4
        };
        open.inputs[1] = vec![9; len];
        read.inputs[1] = vec![9; len];
        open.buffers = vec![room[..len.min(LONGEST_CLEARTEXT)].to_vec()];
        assert_eq!(compare.row(&open), row, "{len}");
        assert_eq!(compare.row(&read), row, "{len}");
    }
}

/// Files that differ in the header's reserved bytes alone open alike, whole and
/// in part.
fn reserved(compare: &mut Compare, combo: Combo) {
    for len in [0, 1, 40, 32_768, 40_000] {
        let whole = make::open_file(&mut compare.random, combo, len);
        let part = Case {
            call: Call::ReadRange,
            numbers: vec![len as u64 / 3, len as u64 / 2],
            ..whole.clone()
        };
        for mut case in [whole, part] {
            let vault = case.inputs[0].clone();
            let mut end = |reserved: u64| {
                make::set_reserved(&vault, &mut case.inputs[1], reserved.to_be_bytes());
                compare.end(&case)
            };
            let own = end(u64::MAX);
            assert_eq!(own.row, 0);
            for other in [0, 1, len as u64, 0x0102_0304_0506_0708, u64::MAX - 1] {
                assert!(end(other) == own, "{other:x}");
            }
        }
    }
}

fn nonces(compare: &mut Compare, combo: Combo) {
    for len in [0, 1, 32_768, 32_769, 65_536, 65_537] {
        let case = make::write_file(&mut compare.random, combo, len);
        let right = case.inputs[3].len();
        for len in 0..70 {
            let mut other = case.clone();
            resize(&mut other.inputs[3], len, &mut compare.random);
            assert_eq!(compare.row(&other), if len == right { 0 } else { 1 });
        }
    }
}

fn repeated_nonces(compare: &mut Compare, combo: Combo) {
    let nonce = format::sizes(combo).nonce;
    let case = make::write_file(&mut compare.random, combo, 5 * CHUNK_LEN);
    for one in 0..5 {
        for other in 0..one {
            let mut repeated = case.clone();
            repeated.inputs[3].copy_within(other * nonce..(other + 1) * nonce, one * nonce);
            assert_eq!(compare.row(&repeated), 8);
        }
    }
    // One bit of difference is enough, and the header's nonce may come again.
    for byte in 0..nonce {
        let mut close = make::write_file(&mut compare.random, combo, CHUNK_LEN + 1);
        let header_nonce = close.inputs[1].clone();
        close.inputs[3] = [&header_nonce[..], &header_nonce].concat();
        close.inputs[3][nonce + byte] ^= 1;
        assert_eq!(compare.row(&close), 0);
    }
}

/// A file that another program wrote, with one nonce in two chunks, opens.
fn nonces_from_elsewhere(compare: &mut Compare, combo: Combo) {
    let sizes = format::sizes(combo);
    let mut write = make::write_file(&mut compare.random, combo, CHUNK_LEN + 40);
    let mut open = make::open_written_file(&mut compare.random, &write);
    // With exchanged nonces, the second chunk has that of the first.
    write.inputs[3].rotate_left(sizes.nonce);
    let other = make::open_written_file(&mut compare.random, &write);
    let second = sizes.header + sizes.chunk;
    open.inputs[1].truncate(second);
    open.inputs[1].extend(&other.inputs[1][second..]);

    let end = compare.end(&open);
    assert_eq!((end.row, end.length), (0, write.inputs[4].len() as u64));
    assert!(
        end.buffers[0].starts_with(&write.inputs[4]),
        "another cleartext"
    );
}

fn sizes(compare: &mut Compare, combo: Combo) {
    let write = make::write_file(&mut compare.random, combo, 50);
    let open = make::open_file(&mut compare.random, combo, 50);
    for (case, sized, need) in [(write, 4, format::sizes(combo).file(50)), (open, 1, 50)] {
        for input in 0..sized {
            for len in 0..80 {
                let mut other = case.clone();
                resize(&mut other.inputs[input], len, &mut compare.random);
                let right = len == case.inputs[input].len();
                assert_eq!(compare.row(&other), if right { 0 } else { 1 });
            }
        }
        for len in 0..200 {
            let mut other = case.clone();
            resize(&mut other.buffers[0], len, &mut compare.random);
            assert_eq!(compare.row(&other), if len < need { 7 } else { 0 });
        }
    }
}
