//! The test points that are run, by name, with the values as they are given.

use crate::case::{Call, Case, End};
use crate::common::random::Random;
use crate::compare::Compare;
use crate::format::sizes;
use crate::make::{self, full_name, with_length};
use crate::part::{Part, Run::Each};
use second::vault::Combo;

pub const PARTS: &[Part] = &[
    (
        "point: names of 1 and 1,020 bytes",
        Each(shortest_and_longest_name),
    ),
    (
        "point: names of 0 and 1,021 bytes",
        Each(no_name_and_too_long_a_name),
    ),
    ("point: directory IDs of 36 and 37 bytes", Each(id_lengths)),
    ("point: directory IDs with byte 127 or 128", Each(id_bytes)),
    ("point: file lengths", Each(file_lengths)),
    (
        "point: file lengths that are refused",
        Each(refused_file_lengths),
    ),
    ("point: text that decodes to 16 bytes", Each(sixteen_bytes)),
    ("point: text of 1,036 or 1,037 bytes", Each(longest_text)),
    ("point: from at its largest, count 1", Each(largest_from)),
    ("point: count at its largest, from 1", Each(largest_count)),
    ("point: from at the end, count 0", Each(empty_range_at_end)),
    (
        "point: wrong key and broken length",
        Each(key_before_length),
    ),
];

/// The lengths of the cleartexts whose ranges are read.
const CLEARTEXTS: [usize; 4] = [0, 1, 32_768, 40_000];

/// Full names of 28 and 1,388 characters; the second is stored as its hash
/// name. Both open again.
fn shortest_and_longest_name(compare: &mut Compare, combo: Combo) {
    for (len, lengths) in [(1, (28, 0)), (1020, (32, 1388))] {
        let case = make::write_name(&mut compare.random, combo, len);
        let End {
            row, length, other, ..
        } = compare.end(&case);
        assert_eq!((row, (length, other)), (0, lengths));
        let open = make::open_written(&mut compare.random, &case);
        assert_eq!(compare.row(&open), 0);
    }
}

/// Row 3.
fn no_name_and_too_long_a_name(compare: &mut Compare, combo: Combo) {
    for len in [0, 1021] {
        let case = make::write_name(&mut compare.random, combo, len);
        assert_eq!(compare.row(&case), 3);
    }
}

/// 36 bytes are taken by every call that is lent an ID, and 37 are row 2.
fn id_lengths(compare: &mut Compare, combo: Combo) {
    id_is_taken(compare, combo, &[b'd'; 36]);
    id_is_refused(compare, combo, &[b'd'; 37]);
}

/// The byte 127 is taken at any place, and 128 is row 2.
fn id_bytes(compare: &mut Compare, combo: Combo) {
    for (len, place) in [(1, 0), (36, 0), (36, 17), (36, 35)] {
        let mut id = vec![b'd'; len];
        id[place] = 127;
        id_is_taken(compare, combo, &id);
        id[place] = 128;
        id_is_refused(compare, combo, &id);
    }
}

fn id_is_taken(compare: &mut Compare, combo: Combo, id: &[u8]) {
    for case in calls_in(&mut compare.random, combo, id) {
        assert_eq!(compare.row(&case), 0, "{:?}", case.call);
    }
}

fn id_is_refused(compare: &mut Compare, combo: Combo, id: &[u8]) {
    for mut case in calls_in(&mut compare.random, combo, b"d") {
        case.inputs[1] = id.to_vec();
        assert_eq!(compare.row(&case), 2, "{:?}", case.call);
    }
}

/// Each call that is lent a directory ID, in the directory with this one.
fn calls_in(random: &mut Random, combo: Combo, id: &[u8]) -> [Case; 5] {
    let mut path = make::dir_path(random, combo);
    let [mut plain, mut long] = [30, 200].map(|len| make::write_name(random, combo, len));
    for case in [&mut path, &mut plain, &mut long] {
        case.inputs[1] = id.to_vec();
    }
    let [open_plain, open_long] = [&plain, &long].map(|case| make::open_written(random, case));
    assert_eq!(open_plain.call, Call::OpenName);
    assert_eq!(open_long.call, Call::OpenLongName);
    [path, plain, long, open_plain, open_long]
}

/// Row 4, whatever keys of 32 bytes: a file is cut or made longer, and is opened,
/// read, kept open and mended with its own keys and with others.
fn refused_file_lengths(compare: &mut Compare, combo: Combo) {
    let random = &mut compare.random;
    let cases = [
        make::open_file(random, combo, 40_000),
        make::read_range(random, combo, 40_000, 0, 1),
        make::open_reader(random, combo, 40_000),
        make::reader_read(random, combo, 40_000, 0, 1),
        make::mend(random, combo, 40_000, 0, 1),
    ];
    let vault = make::vault(random, combo);
    let lengths = match combo {
        Combo::SivGcm => [67, 69, 96, 32_865, 32_892, 16_791_621, 16_791_649],
        Combo::SivCtrmac => [87, 89, 136, 32_905, 32_952, 16_801_881, 16_801_929],
    };
    for length in lengths {
        let case = with_length(Call::CleartextLength, &vault, length as u64);
        assert_eq!(compare.row(&case), 4);
        for case in &cases {
            let mut case = case.clone();
            case.file_mut().resize(length, 0);
            assert_eq!(compare.row(&case), 4);
            let record = case.record_mut().expect("a vault or a reader");
            record[..64].copy_from_slice(&vault[..64]);
            assert_eq!(compare.row(&case), 4);
        }
    }
}

/// Of no cleartext, of one byte, of one chunk, of one byte more, and of the
/// longest.
fn file_lengths(compare: &mut Compare, combo: Combo) {
    let files = match combo {
        Combo::SivGcm => [68, 97, 32_864, 32_893, 16_791_620],
        Combo::SivCtrmac => [88, 137, 32_904, 32_953, 16_801_880],
    };
    let vault = make::vault(&mut compare.random, combo);
    for (cleartext, file) in [0, 1, 32_768, 32_769, 16_777_216].into_iter().zip(files) {
        let end = compare.end(&with_length(Call::FileLength, &vault, cleartext));
        assert_eq!((end.row, end.length), (0, file));
        let end = compare.end(&with_length(Call::CleartextLength, &vault, file));
        assert_eq!((end.row, end.length), (0, cleartext));
    }
}

/// 24 characters, then ".c9r": row 5.
fn sixteen_bytes(compare: &mut Compare, combo: Combo) {
    let text = b"AAAAAAAAAAAAAAAAAAAAAA==.c9r";
    let mut plain = make::open_name(&mut compare.random, combo, 1);
    plain.inputs[2] = text.to_vec();
    assert_eq!(compare.row(&plain), 5);
    let mut long = make::open_long_name(&mut compare.random, combo, 200);
    long.inputs[3] = text.to_vec();
    assert_eq!(compare.row(&long), 5);
}

/// Both have 1,388 characters: the first is in the text form, and its IV does
/// not match; the second is row 5.
fn longest_text(compare: &mut Compare, combo: Combo) {
    for (bytes, row) in [(1036, 12), (1037, 5)] {
        let mut long = make::open_long_name(&mut compare.random, combo, 1020);
        long.inputs[3] = full_name(&compare.random.bytes(bytes));
        long.inputs[2] = make::hash_name(&long.inputs[3]);
        assert_eq!(long.inputs[3].len(), 1388);
        assert_eq!(compare.row(&long), row);
    }
}

/// Row 6.
fn largest_from(compare: &mut Compare, combo: Combo) {
    range_is_refused(compare, combo, u64::MAX, 1);
}

/// Row 6.
fn largest_count(compare: &mut Compare, combo: Combo) {
    range_is_refused(compare, combo, 1, u64::MAX);
}

fn range_is_refused(compare: &mut Compare, combo: Combo, from: u64, count: u64) {
    for len in CLEARTEXTS {
        let mut case = make::read_range(&mut compare.random, combo, len, 0, 0);
        let mut through = make::reader_read(&mut compare.random, combo, len, 0, 0);
        case.numbers = vec![from, count];
        through.numbers = vec![from, count];
        assert_eq!(compare.row(&case), 6);
        assert_eq!(compare.row(&through), 6);
        // No more bytes can be lent than there is memory for.
        if count == 1 {
            let vault = &case.inputs[0];
            let mend = make::mend_file(&mut compare.random, vault, &case.inputs[1], from, 1);
            assert_eq!(compare.row(&mend), 6);
        }
    }
}

/// Success, length 0, and the header is checked, but not through a reader.
fn empty_range_at_end(compare: &mut Compare, combo: Combo) {
    for len in CLEARTEXTS {
        let read = make::read_range(&mut compare.random, combo, len, len as u64, 0);
        let through = make::reader_read(&mut compare.random, combo, len, len as u64, 0);
        let mend = make::mend(&mut compare.random, combo, len, len as u64, 0);
        for (mut case, later) in [(read, 9), (through, 0), (mend, 9)] {
            let End { row, length, .. } = compare.end(&case);
            assert_eq!((row, length), (0, 0));
            case.file_mut()[sizes(combo).header - 1] ^= 1;
            assert_eq!(compare.row(&case), later);
        }
    }
}

/// Row 1: a vault, a content key or the keys of a reader of a byte less or more.
fn key_before_length(compare: &mut Compare, combo: Combo) {
    let random = &mut compare.random;
    let mut cases = [
        make::open_file(random, combo, 10),
        make::read_range(random, combo, 10, 0, 1),
        make::open_reader(random, combo, 10),
        make::reader_read(random, combo, 10, 0, 1),
        make::mend(random, combo, 10, 0, 1),
        make::open_chunk(random, combo, 10),
        make::write_chunk(random, combo, 10),
    ];
    for case in &mut cases {
        let keys = match case.call {
            Call::OpenChunk | Call::WriteChunk => {
                case.inputs.last_mut().expect("a chunk").clear();
                0..2
            }
            call => {
                case.file_mut().clear();
                let place = usize::from(call == Call::ReaderRead);
                place..place + 1
            }
        };
        assert_eq!(compare.row(case), 4);
        for key in keys {
            let (mut shorter, mut longer) = (case.clone(), case.clone());
            shorter.inputs[key].pop();
            longer.inputs[key].push(0);
            assert_eq!(compare.row(&shorter), 1);
            assert_eq!(compare.row(&longer), 1);
        }
    }
}
