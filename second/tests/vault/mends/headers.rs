//! What a header has, which no mend changes.

use super::{done, Log};
use crate::compare::Compare;
use crate::make;
use crate::part::{Part, Run::Each};
use second::vault::Combo;

pub const PARTS: &[Part] = &[("mends: reserved bytes of the header", Each(reserved))];

/// Any are accepted, and stay.
fn reserved(compare: &mut Compare, combo: Combo) {
    for len in [0, 40, 40_000] {
        let log = Log::new(&mut compare.random, combo, len);
        for (from, count) in [(len / 2, len / 2), (len, 0)] {
            let mut mend = log.mend(&mut compare.random, from, count);
            for reserved in [0, 1, len as u64, 0x0102_0304_0506_0708, u64::MAX - 1] {
                let vault = &mend.inputs[0];
                make::set_reserved(vault, &mut mend.buffers[0], reserved.to_be_bytes());
                done(compare, &log, &mend);
            }
        }
    }
}
