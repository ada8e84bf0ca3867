//! Known values: both programs write them, and open them again, or refuse both.

use crate::case::{Call, Case};
use crate::compare::Compare;
use crate::format::READER_KEYS;
use crate::make::reader_keys;
use second::vault::Combo;

/// The header of a vault, a nonce and a content key.
pub fn header(compare: &mut Compare, inputs: [Vec<u8>; 3], header: Vec<u8>) {
    fills(compare, Call::WriteHeader, &inputs, &[], &[&header]);
    let [vault, _, content_key] = inputs;
    let keys = reader_keys(&vault, &content_key);
    let inputs = [vault, header];
    fills(compare, Call::OpenHeader, &inputs, &[], &[&content_key]);
    reader(compare, inputs, keys);
}

/// The keys of the reader of a vault and a header alone, which is the file of an
/// empty cleartext.
fn reader(compare: &mut Compare, inputs: [Vec<u8>; 2], keys: Vec<u8>) {
    let end = compare.end(&Case {
        call: Call::OpenReader,
        inputs: inputs.to_vec(),
        numbers: vec![],
        buffers: vec![vec![0xa5; READER_KEYS]],
    });
    assert_eq!((end.row, end.length), (0, 0));
    assert_eq!(end.buffers, [keys]);
}

/// The chunk of a vault, a content key, the header's nonce, its own, and a
/// cleartext.
pub fn chunk(compare: &mut Compare, inputs: [Vec<u8>; 5], number: u64, chunk: Vec<u8>) {
    fills(compare, Call::WriteChunk, &inputs, &[number], &[&chunk]);
    let [vault, content_key, header_nonce, _, cleartext] = inputs;
    let inputs = [vault, content_key, header_nonce, chunk];
    fills(compare, Call::OpenChunk, &inputs, &[number], &[&cleartext]);
}

/// The full name, or the hash name and the full name, of a vault, a directory
/// ID and a name.
pub fn name(compare: &mut Compare, inputs: [Vec<u8>; 3], texts: &[&str]) {
    let answers = match *texts {
        [full] => [full, ""],
        [hash, full] => [hash, full],
        _ => panic!("not what a name is stored as"),
    };
    let answers = answers.map(str::as_bytes);
    fills(compare, Call::WriteName, &inputs, &[], &answers);
    let (call, opened) = opening(&inputs, texts);
    fills(compare, call, &opened, &[], &[&inputs[2]]);
}

/// The same of bytes that are not text: row 3, and in another directory row 12.
pub fn not_text(compare: &mut Compare, inputs: [Vec<u8>; 3], texts: &[&str]) {
    let (call, mut opened) = opening(&inputs, texts);
    let sizes = [220, 1388];
    assert_eq!(row(compare, Call::WriteName, &inputs, &sizes), 3);
    assert_eq!(row(compare, call, &opened, &sizes[1..]), 3);
    opened[1] = vec![];
    assert_eq!(row(compare, call, &opened, &sizes[1..]), 12);
}

/// The call that opens these texts, and its inputs.
fn opening([vault, id, _]: &[Vec<u8>; 3], texts: &[&str]) -> (Call, Vec<Vec<u8>>) {
    let call = match texts.len() {
        1 => Call::OpenName,
        _ => Call::OpenLongName,
    };
    let texts = texts.iter().map(|text| text.as_bytes().to_vec());
    let directory = [vault, id].map(Clone::clone);
    (call, directory.into_iter().chain(texts).collect())
}

/// The row of a call with buffers of these sizes.
fn row(compare: &mut Compare, call: Call, inputs: &[Vec<u8>], sizes: &[usize]) -> u32 {
    compare.row(&Case {
        call,
        inputs: inputs.to_vec(),
        numbers: vec![],
        buffers: sizes.iter().map(|&size| vec![0xa5; size]).collect(),
    })
}

/// The path of a vault and a directory ID.
pub fn path(compare: &mut Compare, inputs: [Vec<u8>; 2], path: &str) {
    fills(compare, Call::DirPath, &inputs, &[], &[path.as_bytes()]);
}

/// The wrapped key of a key-encryption key and a key.
pub fn wrapped_key(compare: &mut Compare, inputs: [Vec<u8>; 2], wrapped: Vec<u8>) {
    fills(compare, Call::WrapKey, &inputs, &[], &[&wrapped]);
    let [kek, key] = inputs;
    fills(compare, Call::UnwrapKey, &[kek, wrapped], &[], &[&key]);
}

/// The combo and the threshold of a label, by a raw key.
pub fn label(compare: &mut Compare, inputs: [Vec<u8>; 2], combo: Combo, threshold: u64) {
    let end = compare.end(&Case {
        call: Call::OpenLabel,
        inputs: inputs.to_vec(),
        numbers: vec![],
        buffers: vec![],
    });
    let combo = u64::from(combo.number());
    assert_eq!((end.row, end.length, end.other), (0, combo, threshold));
}

/// Fails unless the call fills buffers of their sizes with these answers.
fn fills(
    compare: &mut Compare,
    call: Call,
    inputs: &[Vec<u8>],
    numbers: &[u64],
    answers: &[&[u8]],
) {
    let end = compare.end(&Case {
        call,
        inputs: inputs.to_vec(),
        numbers: numbers.to_vec(),
        buffers: answers
            .iter()
            .map(|answer| vec![0xa5; answer.len()])
            .collect(),
    });
    assert_eq!((end.row, end.length), (0, answers[0].len() as u64));
    assert_eq!(end.buffers, answers);
    if let [_, full] = answers {
        assert_eq!(end.other, full.len() as u64);
    }
}
