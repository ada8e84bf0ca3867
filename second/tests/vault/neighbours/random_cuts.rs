//! Random files, faults and cuts.

use super::sums::add_up;
use super::{both_reads, of_range, random_len};
use crate::case::Case;
use crate::common::random::Random;
use crate::compare::Compare;
use crate::fault::{spoil, Fault};
use crate::log::Log;
use crate::make;
use crate::part::{Part, Run::Each};
use second::vault::Combo;
use std::collections::BTreeSet;

pub const PARTS: &[Part] = &[("neighbours: random cuts", Each(random_cuts))];

const FAULTS: [Fault; 6] = [
    Fault::VaultSize,
    Fault::Combo,
    Fault::NoReader,
    Fault::Length,
    Fault::Header,
    Fault::Chunk,
];

/// All rows that the three reads can have. Through a reader there is no row 9.
const ROWS: [[u32; 3]; 12] = [
    [0, 0, 0],
    [0, 6, 6],
    [0, 10, 10],
    [1, 1, 1],
    [4, 4, 4],
    [6, 6, 6],
    [9, 6, 6],
    [9, 9, 9],
    [10, 0, 10],
    [10, 6, 6],
    [10, 10, 10],
    [17, 17, 17],
];

fn random_cuts(compare: &mut Compare, combo: Combo) {
    let mut rows = [BTreeSet::new(), BTreeSet::new()];
    for _ in 0..250 {
        let len = random_len(&mut compare.random);
        let log = Log::new(&mut compare.random, combo, len);
        let reads = both_reads(compare, &log, &log.file);
        for fault in FAULTS.into_iter().map(Some).chain([None]) {
            for (read, rows) in reads.iter().zip(&mut rows) {
                let read = spoiled(&mut compare.random, read, len, fault);
                let cut = cut(&mut compare.random, len);
                rows.insert(add_up(compare, &log, &read, cut));
            }
        }
    }
    let [of_range_reads, of_readers] = rows;
    assert_eq!(of_range_reads, BTreeSet::from(ROWS));
    let without_headers = ROWS.into_iter().filter(|rows| !rows.contains(&9));
    assert_eq!(of_readers, without_headers.collect());
}

/// The read with this fault, and often with damaged chunks.
fn spoiled(random: &mut Random, read: &Case, len: usize, fault: Option<Fault>) -> Case {
    let mut read = of_range(read, 0, len as u64, &[]);
    if random.below(2) == 0 {
        spoil(&mut read, Fault::Chunk, random);
    }
    if let Some(fault) = fault {
        spoil(&mut read, fault, random);
    }
    read
}

/// Three places in order: often at the edge of a chunk, and some behind the end,
/// or all of them up to the largest number.
pub fn cut(random: &mut Random, len: usize) -> [u64; 3] {
    let mut cut = [0; 3].map(|_| match random.below(8) {
        0 => len + random.below(40),
        1..4 => make::place(random, len),
        _ => random.below(len + 1),
    } as u64);
    cut.sort_unstable();
    match random.below(20) {
        0 => cut.map(|place| u64::MAX - cut[2] + place),
        _ => cut,
    }
}
