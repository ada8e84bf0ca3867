//! Cuts of files, good or damaged, around the edges of chunks.

use super::both_reads;
use super::sums::add_up;
use crate::compare::Compare;
use crate::log::Log;
use crate::part::{Part, Run::Each};
use second::vault::{Combo, CHUNK_LEN};

pub const PARTS: &[Part] = &[
    ("neighbours: every cut of a short file", Each(short)),
    ("neighbours: cuts at edges of chunks", Each(edges)),
    ("neighbours: cuts of damaged files", Each(damaged)),
];

/// Every three of these places, which are in order. Some are the same place.
fn cuts(places: &[u64]) -> Vec<[u64; 3]> {
    let mut cuts = vec![];
    for (k, &c) in places.iter().enumerate() {
        for (j, &b) in places[..=k].iter().enumerate() {
            cuts.extend(places[..=j].iter().map(|&a| [a, b, c]));
        }
    }
    cuts
}

/// Reads these bytes by every cut in both ways.
fn every_cut(compare: &mut Compare, log: &Log, file: &[u8], places: &[u64]) {
    for read in both_reads(compare, log, file) {
        for cut in cuts(places) {
            add_up(compare, log, &read, cut);
        }
    }
}

fn short(compare: &mut Compare, combo: Combo) {
    for len in [0, 1, 16] {
        let log = Log::new(&mut compare.random, combo, len);
        let places: Vec<_> = (0..=len as u64 + 2).collect();
        every_cut(compare, &log, &log.file, &places);
    }
}

/// One byte before a border of chunks, at it and behind it.
const PLACES: [u64; 9] = [0, 1, 32_767, 32_768, 32_769, 65_535, 65_536, 65_537, 98_304];

fn edges(compare: &mut Compare, combo: Combo) {
    for len in [CHUNK_LEN, 2 * CHUNK_LEN + 1, 3 * CHUNK_LEN] {
        let log = Log::new(&mut compare.random, combo, len);
        every_cut(compare, &log, &log.file, &PLACES);
    }
}

/// Every set of three chunks is damaged. The last place is behind the end.
fn damaged(compare: &mut Compare, combo: Combo) {
    let log = Log::new(&mut compare.random, combo, 3 * CHUNK_LEN);
    for set in 0..8 {
        let file = log.damaged(&mut compare.random, set);
        let places = [0, 32_767, 32_768, 32_769, 65_536, 98_304, 98_305];
        every_cut(compare, &log, &file, &places);
    }
}
