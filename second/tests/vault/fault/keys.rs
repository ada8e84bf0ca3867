//! Faults of keys and nonces.

use super::{flip, resize};
use crate::case::{Call, Case};
use crate::common::random::Random;
use crate::make;
use second::key_wrap::INITIAL_VALUE;

/// Of the inputs that are keys and nonces, and for a file of its chunk nonces or
/// of those that mend it.
pub fn key_or_nonce_size(case: &mut Case, random: &mut Random) {
    let inputs = match case.call {
        Call::MakeVault | Call::WrapKey => 0..2,
        Call::OpenLabel | Call::UnwrapKey => 0..1,
        Call::WriteHeader | Call::OpenChunk => 1..3,
        Call::WriteChunk | Call::WriteFile => 1..4,
        Call::Mend => 2..3,
        call => panic!("{call:?} is lent no key and no nonce"),
    };
    let input = &mut case.inputs[inputs.start + random.below(inputs.len())];
    let right = input.len();
    let other = match random.below(6) {
        _ if right == 0 => [1, 12, 16][random.below(3)],
        0 => right + 1 + random.below(40),
        1 => 2 * right + 1,
        2 => right + 12,
        // As many nonces of the other combo's size.
        3 => right * 3 / 4,
        4 => right * 4 / 3,
        _ => random.below(right),
    };
    resize(input, other, random);
}

/// Another bit of the key-encryption key or of the wrapped key, or a key that
/// was wrapped from another check value.
pub fn check_value(case: &mut Case, random: &mut Random) {
    match random.below(3) {
        0 => flip(&mut case.inputs[0], random),
        1 => flip(&mut case.inputs[1], random),
        _ => {
            let other = INITIAL_VALUE ^ 1 << random.below(64);
            case.inputs[1] = make::wrapped_from(&case.inputs[0], other, &random.bytes(32));
        }
    }
}
