//! What one combo wrote, opened as the other with the same keys.

use crate::case::{Call, Case, End};
use crate::compare::Compare;
use crate::fault::resize;
use crate::format::{other, sizes};
use crate::make;
use crate::part::{Part, Run::Each};
use second::vault::{Combo, CHUNK_LEN};

pub const PARTS: &[Part] = &[
    ("opened as the other combo: files and ranges", Each(files)),
    ("mended as the other combo: nonces", Each(nonces)),
    ("opened as the other combo: headers", Each(headers)),
    ("opened as the other combo: chunks", Each(chunks)),
    (
        "opened as the other combo: chunks of files",
        Each(chunks_of_files),
    ),
];

/// The case with the other combo in its vault.
fn as_other(case: &Case, combo: Combo) -> Case {
    let mut case = case.clone();
    case.inputs[0] = make::with_combo(&case.inputs[0], other(combo));
    case
}

/// Row 4 where no file of the other combo has this length, and else row 9.
fn files(compare: &mut Compare, combo: Combo) {
    let mut rows = [0, 0];
    let edges = [32_728, 32_729, 32_756, 32_757, 32_767, 32_768, 32_769];
    let two_chunks = [40_000, 65_488, 65_500, 65_536, 65_537];
    for len in (0..150).chain(edges).chain(two_chunks) {
        let open = make::open_file(&mut compare.random, combo, len);
        assert_eq!(compare.row(&open), 0);
        let mut open = as_other(&open, combo);
        open.buffers = vec![compare.random.bytes(len + 100)];
        let length = make::with_length(
            Call::CleartextLength,
            &open.inputs[0],
            open.inputs[1].len() as u64,
        );
        let row = match compare.row(&length) {
            0 => 9,
            row => row,
        };
        assert_eq!(compare.row(&open), row);
        open.call = Call::ReadRange;
        open.numbers = vec![0, 0];
        assert_eq!(compare.row(&open), row);
        let keep = Case {
            call: Call::OpenReader,
            numbers: vec![],
            ..open.clone()
        };
        assert_eq!(compare.row(&keep), row);
        let mend = make::mend_file(&mut compare.random, &open.inputs[0], &open.inputs[1], 0, 0);
        assert_eq!(compare.row(&mend), row);
        rows[usize::from(row == 9)] += 1;
    }
    assert!(rows.iter().all(|&count| count > 3), "{rows:?}");
}

/// Row 1. Four of 12 bytes are as long as three of 16: for as many chunks as that
/// row 9.
fn nonces(compare: &mut Compare, combo: Combo) {
    let len = 4 * CHUNK_LEN;
    for chunks in 1..=4 {
        let mend = make::mend(&mut compare.random, combo, len, 0, chunks * CHUNK_LEN);
        assert_eq!(compare.row(&mend), 0);
        assert_eq!(compare.row(&as_other(&mend, combo)), 1);
    }
    let (own, others) = match combo {
        Combo::SivGcm => (4, 3),
        Combo::SivCtrmac => (3, 4),
    };
    let mend = make::mend(&mut compare.random, combo, len, 0, own * CHUNK_LEN);
    let mut mend = as_other(&mend, combo);
    mend.inputs[1].resize(others * CHUNK_LEN, 0);
    assert_eq!(compare.row(&mend), 9);
}

/// Row 4, and in the other's length row 9.
fn headers(compare: &mut Compare, combo: Combo) {
    for _ in 0..50 {
        let open = make::open_header(&mut compare.random, combo);
        assert_eq!(compare.row(&open), 0);
        let mut open = as_other(&open, combo);
        assert_eq!(compare.row(&open), 4);
        let right = sizes(other(combo)).header;
        resize(&mut open.inputs[1], right, &mut compare.random);
        assert_eq!(compare.row(&open), 9);
    }
}

/// Row 1 by the header's nonce; with one of the right length row 10, or row 4
/// where the other has no chunk of this length.
fn chunks(compare: &mut Compare, combo: Combo) {
    let (own, others) = (sizes(combo), sizes(other(combo)));
    for len in (1..80).chain([CHUNK_LEN - 20, CHUNK_LEN - 19, CHUNK_LEN]) {
        let open = make::open_chunk(&mut compare.random, combo, len);
        assert_eq!(compare.row(&open), 0);
        let mut open = as_other(&open, combo);
        assert_eq!(compare.row(&open), 1);
        resize(&mut open.inputs[2], others.nonce, &mut compare.random);
        open.buffers = vec![compare.random.bytes(len + 20)];
        let fits = (others.overhead + 1..=others.chunk).contains(&(len + own.overhead));
        assert_eq!(compare.row(&open), if fits { 10 } else { 4 });
    }
}

/// Behind a header of the other combo with the same content key and, as far as
/// it goes, the same nonce.
fn chunks_of_files(compare: &mut Compare, combo: Combo) {
    let others = sizes(other(combo));
    for len in [30, 60, CHUNK_LEN, CHUNK_LEN + 60] {
        let mut write = make::write_file(&mut compare.random, combo, len);
        let file = make::open_written_file(&mut compare.random, &write);
        let mut mixed = as_other(&file, combo);
        write = as_other(&write, combo);
        write.inputs[1].resize(others.nonce, 0);
        write.inputs[3].clear();
        write.inputs[4].clear();
        let header = make::open_written_file(&mut compare.random, &write);
        mixed.inputs[1].splice(..sizes(combo).header, header.inputs[1].iter().copied());
        mixed.buffers = vec![compare.random.bytes(len + 100)];
        let End { row, at, .. } = compare.end(&mixed);
        assert!(row == 4 || (row, at) == (10, 0), "{len}: row {row}");
    }
}
