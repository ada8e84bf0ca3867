//! Base 32.

use crate::common::check::{self, BASE32_DATA_LEN};
use crate::common::random::Random;

const TEXT_LEN: usize = 32;

#[test]
fn random_data() {
    let mut random = Random::new(41);
    for _ in 0..100_000 {
        let data = random.array::<BASE32_DATA_LEN>();
        assert!(check::base32(&data, &random.array::<TEXT_LEN>()));
    }
}

/// Every pair of bytes at every place.
#[test]
fn all_pairs_of_bytes() {
    for place in 0..BASE32_DATA_LEN - 1 {
        for pair in 0..=u16::MAX {
            let mut data = [0; BASE32_DATA_LEN];
            data[place..place + 2].copy_from_slice(&pair.to_be_bytes());
            assert!(check::base32(&data, &[0xa5; TEXT_LEN]));
        }
    }
}

#[test]
fn all_sizes() {
    let mut random = Random::new(42);
    for len in 0..=80 {
        for out_len in 0..=140 {
            let [data, out] = [len, out_len].map(|len| random.bytes(len));
            let right = len == BASE32_DATA_LEN && out_len >= TEXT_LEN;
            assert_eq!(check::base32(&data, &out), right);
        }
    }
}
