//! Every set of rows that apply together: the first of them is given.

use super::{not_made, opening, refused, Reader};
use crate::case::{Call, Case};
use crate::common::random::Random;
use crate::compare::Compare;
use crate::fault::{flip, Fault};
use crate::format::{sizes, COMBO_PLACE};
use crate::log::Log;
use crate::part::{Part, Run::Each};
use second::vault::{Combo, CHUNK_LEN};

pub const PARTS: &[Part] = &[
    ("readers: every set of rows of a making", Each(of_making)),
    ("readers: every set of rows of a read", Each(of_read)),
];

/// Three chunks, of which the range covers the first two.
const LEN: usize = 2 * CHUNK_LEN + 1000;
const FROM: u64 = CHUNK_LEN as u64 - 10;
const COUNT: u64 = 50;

/// The call with each set of its faults, and the row of the first of these.
fn sets(random: &mut Random, combo: Combo, case: &Case) -> Vec<(Case, u32)> {
    let faults = case.call.faults();
    let mut sets = vec![];
    for set in 1..1 << faults.len() {
        let is_in = |i: &usize| set >> i & 1 == 1;
        let first = (0..faults.len()).find(is_in).expect("not empty");
        for _ in 0..4 {
            let mut spoiled = case.clone();
            for i in (0..faults.len()).filter(is_in).rev() {
                make(&mut spoiled, combo, faults[i], random);
            }
            sets.push((spoiled, faults[first].row()));
        }
    }
    sets
}

fn of_making(compare: &mut Compare, combo: Combo) {
    let log = Log::new(&mut compare.random, combo, LEN);
    let open = opening(log.vault(), &log.file, &compare.random.bytes(70));
    for (open, row) in sets(&mut compare.random, combo, &open) {
        not_made(compare, &open, row);
    }
}

fn of_read(compare: &mut Compare, combo: Combo) {
    let log = Log::new(&mut compare.random, combo, LEN);
    let reader = Reader::new(compare, &log);
    let read = reader.reading(FROM, COUNT, &compare.random.bytes(60));
    for (read, row) in sets(&mut compare.random, combo, &read) {
        refused(compare, &read, row);
    }
}

/// Makes a fault that leaves those which were made before.
fn make(case: &mut Case, combo: Combo, fault: Fault, random: &mut Random) {
    let sizes = sizes(combo);
    let one_of_two = random.below(2);
    let need = match case.call {
        Call::OpenReader => 65,
        _ => COUNT as usize,
    };
    let record = case.record_mut().expect("a vault or a reader");
    match fault {
        Fault::VaultSize if one_of_two == 0 => record.push(0),
        Fault::VaultSize => drop(record.pop()),
        Fault::Combo => record[COMBO_PLACE] = [3, 0xff][one_of_two],
        Fault::NoReader if one_of_two == 0 => record.fill(0),
        Fault::NoReader => record[COMBO_PLACE] = 0,
        Fault::Length => {
            let len = [sizes.overhead, 1][one_of_two];
            let chunks = sizes.header + 2 * sizes.chunk;
            case.file_mut().truncate(chunks + len);
        }
        Fault::Range => case.numbers[0] = [u64::MAX - 9, LEN as u64 - 49][one_of_two],
        Fault::Room => case.buffers[0].truncate([need - 1, 0][one_of_two]),
        Fault::Header => flip(&mut case.file_mut()[..sizes.header], random),
        Fault::Chunk => {
            let start = sizes.header + one_of_two * sizes.chunk;
            flip(&mut case.file_mut()[start..start + sizes.chunk], random);
        }
        _ => panic!("no call on readers looks for {fault:?}"),
    }
}
