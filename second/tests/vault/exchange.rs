//! What one program writes, the other opens.

use crate::case::{Call, Case, End};
use crate::compare::Compare;
use crate::format::{longest_plain, LONGEST_NAME, READER_KEYS};
use crate::part::Part;
use crate::part::Run::{Each, Once};
use crate::{library, make, predict};
use second::vault::Combo;

pub const PARTS: &[Part] = &[
    ("exchange: vaults and files", Each(vaults_and_files)),
    ("exchange: headers and chunks", Each(headers_and_chunks)),
    ("exchange: readers", Each(readers)),
    ("exchange: mends", Each(mends)),
    ("exchange: names", Each(names)),
    ("exchange: keys", Once(keys)),
];

/// One of the two programs.
type Program = fn(&Case) -> End;

/// Each program as the writer, with the other as the reader.
const WAYS: [(Program, Program); 2] = [(library::end, predict::end), (predict::end, library::end)];

/// What a call writes to each of its buffers.
fn written(compare: &mut Compare, writer: Program, case: &Case) -> Vec<Vec<u8>> {
    let mut end = writer(case);
    assert_eq!(end.row, 0);
    compare.tally.count(case, &end);
    end.buffers[0].truncate(end.length as usize);
    if let Some(full) = end.buffers.get_mut(1) {
        full.truncate(end.other as usize);
    }
    end.buffers
}

/// Fails unless opening gives the cleartext.
fn opens(
    compare: &mut Compare,
    reader: Program,
    call: Call,
    inputs: Vec<Vec<u8>>,
    cleartext: &[u8],
) {
    let case = Case {
        call,
        inputs,
        numbers: if call == Call::OpenChunk {
            vec![7]
        } else {
            vec![]
        },
        buffers: vec![compare.random.bytes(cleartext.len())],
    };
    let end = reader(&case);
    assert_eq!((end.row, end.length), (0, cleartext.len() as u64));
    assert!(end.buffers[0] == cleartext, "another cleartext");
    if call == Call::OpenHeader {
        assert_eq!(end.other, u64::MAX, "the reserved bytes of our writers");
    }
    compare.tally.count(&case, &end);
}

/// The writer makes the vault as well.
fn vaults_and_files(compare: &mut Compare, combo: Combo) {
    for len in [0, 1, 100, 32_767, 32_768, 32_769, 65_536, 100_000] {
        for (writer, reader) in WAYS {
            let vault = make::make_vault(&mut compare.random, combo);
            let vault = written(compare, writer, &vault).swap_remove(0);
            let mut write = make::write_file(&mut compare.random, combo, len);
            write.inputs[0] = vault.clone();
            let file = written(compare, writer, &write).swap_remove(0);
            let inputs = vec![vault, file];
            opens(compare, reader, Call::OpenFile, inputs, &write.inputs[4]);
        }
    }
}

/// The writer makes the reader of its file, and the other program reads through
/// it.
fn readers(compare: &mut Compare, combo: Combo) {
    for len in [0, 1, 100, 32_767, 32_768, 32_769, 65_536, 100_000] {
        for (writer, reader) in WAYS {
            let write = make::write_file(&mut compare.random, combo, len);
            let file = written(compare, writer, &write).swap_remove(0);
            let open = Case {
                call: Call::OpenReader,
                inputs: vec![write.inputs[0].clone(), file.clone()],
                numbers: vec![],
                buffers: vec![vec![0xa5; READER_KEYS]],
            };
            let made = writer(&open);
            assert_eq!((made.row, made.length), (0, len as u64));
            compare.tally.count(&open, &made);

            let (from, count) = (len / 3, len / 2);
            let read = Case {
                call: Call::ReaderRead,
                inputs: [vec![file], made.buffers].concat(),
                numbers: [from, count].map(|number| number as u64).to_vec(),
                buffers: vec![vec![0xa5; count]],
            };
            let end = reader(&read);
            assert_eq!((end.row, end.length), (0, count as u64));
            let part = &write.inputs[4][from..from + count];
            assert!(end.buffers[0] == part, "another cleartext");
            compare.tally.count(&read, &end);
        }
    }
}

/// The reader of what is mended wrote the file.
fn mends(compare: &mut Compare, combo: Combo) {
    for (len, from, count) in [
        (1, 0, 1),
        (100, 30, 50),
        (32_768, 32_767, 1),
        (70_000, 32_700, 200),
        (70_000, 40_000, 0),
        (70_000, 0, 70_000),
    ] {
        for (writer, reader) in WAYS {
            let write = make::write_file(&mut compare.random, combo, len);
            let file = written(compare, reader, &write).swap_remove(0);
            let vault = write.inputs[0].clone();
            let mend = make::mend_file(&mut compare.random, &vault, &file, from as u64, count);
            let mut end = writer(&mend);
            assert_eq!((end.row, end.length), (0, count as u64));
            compare.tally.count(&mend, &end);

            let mut cleartext = write.inputs[4].clone();
            cleartext[from..from + count].copy_from_slice(&mend.inputs[1]);
            let inputs = vec![vault, end.buffers.swap_remove(0)];
            opens(compare, reader, Call::OpenFile, inputs, &cleartext);
        }
    }
}

fn headers_and_chunks(compare: &mut Compare, combo: Combo) {
    for len in [1, 2, 100, 32_767, 32_768] {
        for (writer, reader) in WAYS {
            let write = make::write_header(&mut compare.random, combo);
            let header = written(compare, writer, &write).swap_remove(0);
            let inputs = vec![write.inputs[0].clone(), header];
            opens(compare, reader, Call::OpenHeader, inputs, &write.inputs[2]);

            let mut write = make::write_chunk(&mut compare.random, combo, len);
            write.numbers = vec![7];
            let chunk = written(compare, writer, &write).swap_remove(0);
            let inputs = [&write.inputs[..3], &[chunk]].concat();
            opens(compare, reader, Call::OpenChunk, inputs, &write.inputs[4]);
        }
    }
}

fn names(compare: &mut Compare, combo: Combo) {
    for len in 1..=LONGEST_NAME {
        for (writer, reader) in WAYS {
            let threshold = make::threshold(&mut compare.random);
            let write = make::write_name_at(&mut compare.random, combo, threshold, len);
            let mut texts = written(compare, writer, &write);
            let call = if len > longest_plain(threshold) {
                Call::OpenLongName
            } else {
                Call::OpenName
            };
            if call == Call::OpenName {
                texts.truncate(1);
            }
            let inputs = [&write.inputs[..2], &texts].concat();
            opens(compare, reader, call, inputs, &write.inputs[2]);
        }
    }
}

fn keys(compare: &mut Compare) {
    for _ in 0..500 {
        for (writer, reader) in WAYS {
            let wrap = make::wrap_key(&mut compare.random);
            let wrapped = written(compare, writer, &wrap).swap_remove(0);
            let inputs = vec![wrap.inputs[0].clone(), wrapped];
            opens(compare, reader, Call::UnwrapKey, inputs, &wrap.inputs[1]);
        }
    }
}
