//! Wrapped keys.

use super::{answer, with_room};
use crate::case::{Call, Case};
use crate::common::random::Random;
use crate::format::WRAPPED_KEY;
use second::aes::Aes256;
use second::key_wrap;

pub fn wrap_key(random: &mut Random) -> Case {
    let pair = [32, 32].map(|len| random.bytes(len));
    wrap(random, pair)
}

/// The call that wraps this key: the second of the two, under the first.
pub fn wrap(random: &mut Random, pair: [Vec<u8>; 2]) -> Case {
    with_room(Call::WrapKey, random, pair.to_vec(), &[], WRAPPED_KEY)
}

pub fn unwrap_key(random: &mut Random) -> Case {
    let wrap = wrap_key(random);
    let kek = wrap.inputs[0].clone();
    unwrap(random, [kek, answer(&wrap)])
}

/// The call that unwraps these bytes: the second of the two, under the first.
pub fn unwrap(random: &mut Random, pair: [Vec<u8>; 2]) -> Case {
    with_room(Call::UnwrapKey, random, pair.to_vec(), &[], 32)
}

/// A key as `second` wraps it from a check value of choice.
pub fn wrapped_from(kek: &[u8], check_value: u64, key: &[u8]) -> Vec<u8> {
    let cipher = Aes256::new(kek.try_into().expect("a key"));
    key_wrap::wrap_from(&cipher, check_value, key)
}
