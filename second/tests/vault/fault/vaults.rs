//! Faults of vaults, and of the keys of readers.

use super::{labels, resize};
use crate::case::{Call, Case};
use crate::common::random::Random;
use crate::format::{COMBO_PLACE, READER_KEYS, THRESHOLD_PLACE, VAULT};

pub fn size(case: &mut Case, random: &mut Random) {
    let right = match case.call {
        Call::ReaderRead => READER_KEYS,
        _ => VAULT,
    };
    let len = match random.below(5) {
        0 => 0,
        1 => right - 1,
        2 => right + 1,
        3 => random.below(right),
        _ => right + 1 + random.below(200),
    };
    resize(record(case), len, random);
}

fn record(case: &mut Case) -> &mut Vec<u8> {
    case.record_mut().expect("a vault or a reader")
}

/// A number that is not 1 or 2, nor for a reader 0: for a vault to make, also
/// one that is modulo 256. Or another name in a label.
pub fn combo(case: &mut Case, random: &mut Random) {
    let number = [0, 3, 3 + random.below(253)][random.below(3)] as u8;
    match case.call {
        Call::OpenLabel => return labels::combo(case, random),
        Call::MakeVault => {}
        Call::ReaderRead => {
            record(case)[COMBO_PLACE] = number.max(3);
            return;
        }
        _ => {
            record(case)[COMBO_PLACE] = number;
            return;
        }
    }
    case.numbers[0] = match random.below(4) {
        0 => u64::from(number),
        1 => (1 << (8 + random.below(24))) + random.below(3) as u64,
        2 => u64::from(u32::MAX - random.below(4) as u32),
        _ => (random.word() >> 32).max(3),
    };
}

/// A number that is not 36 to 220: for a vault to make, also one that is modulo
/// 256. Or such a number in a label.
pub fn threshold(case: &mut Case, random: &mut Random) {
    let number = [0, 35, 221, 255, random.below(36), 221 + random.below(35)][random.below(6)];
    match case.call {
        Call::OpenLabel => return labels::threshold(case, random),
        Call::MakeVault => {}
        _ => {
            case.inputs[0][THRESHOLD_PLACE] = number as u8;
            return;
        }
    }
    case.numbers[1] = match random.below(4) {
        0 => number as u64,
        1 => (1 << (8 + random.below(24))) + random.below(256) as u64,
        2 => u64::from(u32::MAX - random.below(256) as u32),
        _ => (random.word() >> 32).max(256),
    };
}

/// The keys of no bytes, or others that end like them.
pub fn no_reader(case: &mut Case, random: &mut Random) {
    let keys = record(case);
    match random.below(2) {
        0 => keys.fill(0),
        _ => keys[COMBO_PLACE] = 0,
    }
}
