//! Faults of lengths, and of headers, chunks, files and ranges.

use super::{flip, mends, resize};
use crate::case::{Call, Case};
use crate::common::random::Random;
use crate::format::{sizes, Sizes, LONGEST_CLEARTEXT, WRAPPED_KEY};
use crate::make;
use second::vault::{Combo, CHUNK_LEN};

pub fn length(case: &mut Case, random: &mut Random) {
    if case.call == Call::UnwrapKey {
        return other_than(&mut case.inputs[1], WRAPPED_KEY, random);
    }
    let sizes = own_sizes(case);
    match case.call {
        Call::OpenHeader => other_than(&mut case.inputs[1], sizes.header, random),
        Call::WriteChunk => {
            let len = random.below(2) * (CHUNK_LEN + 1 + random.below(2) * random.below(100));
            resize(&mut case.inputs[4], len, random);
        }
        Call::OpenChunk => {
            let short = random.below(sizes.overhead + 1);
            let long = sizes.chunk + 1 + random.below(100);
            resize(&mut case.inputs[3], [short, long][random.below(2)], random);
        }
        Call::WriteFile => {
            case.inputs[4] = vec![7; LONGEST_CLEARTEXT + 1 + random.below(100)];
            resize(&mut case.inputs[3], 513 * sizes.nonce, random);
        }
        Call::OpenFile | Call::ReadRange | Call::OpenReader | Call::ReaderRead | Call::Mend => {
            file_length(case.file_mut(), &sizes, random);
        }
        Call::FileLength => case.numbers[0] = large(random, LONGEST_CLEARTEXT + 1),
        Call::CleartextLength => {
            let whole = sizes.header + random.below(512) * sizes.chunk;
            case.numbers[0] = match random.below(3) {
                0 => large(random, sizes.longest_file + 1),
                1 => (whole + 1 + random.below(sizes.overhead)) as u64,
                _ => random.below(sizes.header) as u64,
            };
        }
        call => panic!("{call:?} does not look at lengths"),
    }
}

/// The sizes of the vault's combo, or of the reader's.
fn own_sizes(case: &Case) -> Sizes {
    sizes(case.combo().expect("a vault or a reader"))
}

/// Any length but the right one.
fn other_than(input: &mut Vec<u8>, right: usize, random: &mut Random) {
    let len = [random.below(right), right + 1 + random.below(100)][random.below(2)];
    resize(input, len, random);
}

/// Too long, too short for its last chunk, or shorter than a header.
fn file_length(file: &mut Vec<u8>, sizes: &Sizes, random: &mut Random) {
    let chunks = file.len().saturating_sub(sizes.header) / sizes.chunk;
    let whole = sizes.header + chunks * sizes.chunk;
    let len = match random.below(40) {
        0 => return file.resize(sizes.longest_file + 1 + random.below(100), 7),
        1..20 => whole + 1 + random.below(sizes.overhead),
        _ => random.below(sizes.header),
    };
    resize(file, len, random);
}

/// A number from this one on, often at the edge or very large.
fn large(random: &mut Random, least: usize) -> u64 {
    let least = least as u64;
    match random.below(3) {
        0 => least + random.below(3) as u64,
        1 => u64::MAX - random.below(3) as u64,
        _ => (random.word() >> random.below(40)).max(least),
    }
}

pub fn range(case: &mut Case, random: &mut Random) {
    if case.call == Call::Mend {
        return mends::range(case, random);
    }
    let end = make::cleartext_len(case) as u64;
    let more = 1 + random.below(3) as u64;
    let near = random.below(end as usize + 1) as u64;
    let (from, count) = match random.below(7) {
        0 => (u64::MAX, 1),
        1 => (end + more, 0),
        2 => (near, end - near + more),
        3 => (near, u64::MAX - near + more.min(near)),
        4 => (u64::MAX - near, near + more),
        5 => (u64::MAX - random.below(40_000) as u64, random.word()),
        _ => (random.word() | 1 << 40, random.word()),
    };
    case.numbers = vec![from, count];
}

pub fn repeated_nonce(case: &mut Case, random: &mut Random) -> bool {
    let len = own_sizes(case).nonce;
    match case.call {
        Call::Mend => mends::repeated_nonce(case, random),
        _ => repeat(&mut case.inputs[3], len, random),
    }
}

/// Makes one nonce of this length equal to another of them, if there are two.
pub fn repeat(nonces: &mut [u8], len: usize, random: &mut Random) -> bool {
    let number = nonces.len() / len;
    if number < 2 {
        return false;
    }
    let one = random.below(number);
    let other = (one + 1 + random.below(number - 1)) % number;
    nonces.copy_within(other * len..(other + 1) * len, one * len);
    true
}

/// A wrong bit: of the nonce, of the reserved bytes or the content key as they
/// are stored, or of the tag.
pub fn header(case: &mut Case, random: &mut Random) {
    let header = own_sizes(case).header;
    flip(&mut case.file_mut()[..header], random);
}

/// Damages one covering chunk or more, or takes others for good ones.
pub fn chunk(case: &mut Case, random: &mut Random) -> bool {
    if case.call == Call::OpenChunk {
        single_chunk(case, random);
        return true;
    }
    let (sizes, (from, count)) = (own_sizes(case), case.range());
    if count == 0 {
        return false;
    }
    if case.call == Call::ReaderRead && random.below(2) == 0 {
        strange_reader(case, random);
        return true;
    }
    let first = from as usize / CHUNK_LEN;
    let end = (from + count).div_ceil(CHUNK_LEN as u64) as usize;
    let chunks = case.file_mut()[sizes.header..].chunks_mut(sizes.chunk);
    let mut covering: Vec<_> = chunks.take(end).skip(first).collect();
    for _ in 0..1 + random.below(2).min(covering.len() - 1) {
        let one = random.below(covering.len());
        flip(covering.swap_remove(one), random);
    }
    true
}

/// Another header nonce, or another key that the tags are under: the content
/// key, or in SIV_CTRMAC the MAC master key.
fn strange_reader(case: &mut Case, random: &mut Random) {
    let nonce = own_sizes(case).nonce;
    match (random.below(2), case.combo()) {
        (0, _) => flip(&mut case.inputs[0][..nonce], random),
        (_, Some(Combo::SivCtrmac)) => flip(&mut case.inputs[1][32..64], random),
        _ => flip(&mut case.inputs[1][..32], random),
    }
}

/// Another number, header nonce or chunk; or another key that the tag is under:
/// the content key, or in SIV_CTRMAC the MAC master key.
fn single_chunk(case: &mut Case, random: &mut Random) {
    match (random.below(4), case.combo()) {
        (0, _) => case.numbers[0] ^= 1 << random.below(64),
        (1, _) => flip(&mut case.inputs[2], random),
        (2, Some(Combo::SivCtrmac)) => flip(&mut case.inputs[0][32..64], random),
        (2, _) => flip(&mut case.inputs[1], random),
        _ => flip(&mut case.inputs[3], random),
    }
}
