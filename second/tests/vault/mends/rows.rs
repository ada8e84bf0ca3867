//! Every set of rows that apply together: the first of them is given.

use super::{refused, Log};
use crate::case::{Call, Case};
use crate::common::random::Random;
use crate::compare::Compare;
use crate::fault::{flip, Fault};
use crate::format::{sizes, Sizes, COMBO_PLACE};
use crate::make::chunk_nonces;
use crate::part::{Part, Run::Each};
use second::vault::{Combo, CHUNK_LEN};

pub const PARTS: &[Part] = &[("mends: every set of rows", Each(every_set))];

/// Three chunks, of which the range covers the first two.
const LEN: usize = 2 * CHUNK_LEN + 1000;
const FROM: usize = CHUNK_LEN - 10;
const COUNT: usize = 50;

fn every_set(compare: &mut Compare, combo: Combo) {
    let log = Log::new(&mut compare.random, combo, LEN);
    let faults = Call::Mend.faults();
    for set in 1..1 << faults.len() {
        let is_in = |i: &usize| set >> i & 1 == 1;
        for _ in 0..2 {
            let mut mend = log.mend(&mut compare.random, FROM, COUNT);
            for i in (0..faults.len()).filter(is_in).rev() {
                make(&mut mend, combo, faults[i], &mut compare.random);
            }
            let first = (0..faults.len()).find(is_in).expect("not empty");
            refused(compare, &mend, faults[first].row());
        }
    }
}

/// Makes a fault that leaves those which were made before.
fn make(mend: &mut Case, combo: Combo, fault: Fault, random: &mut Random) {
    let sizes = sizes(combo);
    let Case {
        inputs,
        numbers,
        buffers,
        ..
    } = mend;
    let [vault, _, nonces] = &mut inputs[..] else {
        panic!("not what mends a file");
    };
    let one_of_two = random.below(2);
    match fault {
        Fault::VaultSize => longer_or_shorter(vault, one_of_two),
        Fault::Combo => vault[COMBO_PLACE] = [0, 3][one_of_two],
        Fault::KeyOrNonceSize => longer_or_shorter(nonces, one_of_two),
        Fault::Length => {
            let len = [sizes.overhead, 1][one_of_two];
            buffers[0].truncate(sizes.header + 2 * sizes.chunk + len);
        }
        // It covers two chunks there as well.
        Fault::Range => numbers[0] = [u64::MAX - 9, (3 * CHUNK_LEN - 10) as u64][one_of_two],
        Fault::RepeatedNonce => {
            let nonce = match one_of_two {
                0 => nonces[sizes.nonce..].to_vec(),
                _ => chunk_nonces(combo, &buffers[0])[2].to_vec(),
            };
            nonces[..sizes.nonce].copy_from_slice(&nonce);
        }
        Fault::Header => flip(&mut buffers[0][..sizes.header], random),
        Fault::Chunk => damage(&mut buffers[0], &sizes, one_of_two, random),
        _ => panic!("a mend does not look for {fault:?}"),
    }
}

fn longer_or_shorter(bytes: &mut Vec<u8>, one_of_two: usize) {
    match one_of_two {
        0 => bytes.push(0),
        _ => drop(bytes.pop()),
    }
}

/// Of the first two chunks one.
fn damage(file: &mut [u8], sizes: &Sizes, number: usize, random: &mut Random) {
    let start = sizes.header + number * sizes.chunk;
    flip(&mut file[start..start + sizes.chunk], random);
}
