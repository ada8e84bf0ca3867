//! Wrapped keys.

use crate::inputs::ENC;
use crate::random::Random;
use crate::time::both;
use second::vault;
use skrapnefja::{KEY_LEN, WRAPPED_KEY_LEN};

const KEYS: usize = 1000;

pub fn run() {
    let mut random = Random::new(5);
    let keys: Vec<_> = (0..KEYS).map(|_| random.array()).collect();
    wrap(&keys);
    unwrap(&keys);
}

fn wrap(keys: &[[u8; KEY_LEN]]) {
    both(
        &format!("{KEYS} keys wrapped"),
        &mut vec![vec![0; WRAPPED_KEY_LEN]; KEYS],
        |out| {
            let wraps = out.iter_mut().zip(keys);
            wraps
                .map(|(out, key)| skrapnefja::wrap_key(&ENC, key, out))
                .sum()
        },
        |out| {
            let wraps = out.iter_mut().zip(keys);
            wraps
                .map(|(out, key)| vault::wrap_key(&ENC, key, out))
                .sum()
        },
    );
}

fn unwrap(keys: &[[u8; KEY_LEN]]) {
    let wrapped: Vec<_> = keys.iter().map(wrapped).collect();
    both(
        &format!("{KEYS} keys unwrapped"),
        &mut vec![vec![0; KEY_LEN]; KEYS],
        |out| {
            let unwraps = out.iter_mut().zip(&wrapped);
            unwraps
                .map(|(out, wrapped)| skrapnefja::unwrap_key(&ENC, wrapped, out))
                .sum()
        },
        |out| {
            let unwraps = out.iter_mut().zip(&wrapped);
            unwraps
                .map(|(out, wrapped)| vault::unwrap_key(&ENC, wrapped, out))
                .sum()
        },
    );
}

fn wrapped(key: &[u8; KEY_LEN]) -> [u8; WRAPPED_KEY_LEN] {
    let mut wrapped = [0; WRAPPED_KEY_LEN];
    vault::wrap_key(&ENC, key, &mut wrapped).expect("nothing to refuse");
    wrapped
}
