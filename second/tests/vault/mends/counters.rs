//! Nonces of SIV_CTRMAC from which the counter soon wraps or carries, old and
//! new ones.

use super::{done, opens, Log};
use crate::compare::Compare;
use crate::make::{self, before_carry};
use crate::part::{Part, Run::Once};
use second::vault::{Combo, CHUNK_LEN};

pub const PARTS: &[Part] = &[("mends: counters", Once(counters))];

/// The range begins before the border, at it and behind it.
fn counters(compare: &mut Compare) {
    for bytes in [1, 4, 8, 16] {
        for counters in [1, 4, 100, CHUNK_LEN / 16 - 1] {
            let mut write = make::write_file(&mut compare.random, Combo::SivCtrmac, CHUNK_LEN + 40);
            let old = before_carry(&mut compare.random, bytes, counters);
            write.inputs[3] = [old, compare.random.bytes(16)].concat();
            let log = Log::of(Combo::SivCtrmac, write);
            let border = 16 * counters;
            for from in [border - 1, border, border + 1] {
                let mut mend = log.mend(&mut compare.random, from, 20);
                let new = before_carry(&mut compare.random, bytes, counters + 1);
                mend.inputs[2][..16].copy_from_slice(&new);
                let mended = done(compare, &log, &mend);
                opens(compare, &mended, from..from + 20);
            }
        }
    }
}
