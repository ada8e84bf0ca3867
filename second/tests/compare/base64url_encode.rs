//! Base 64 for URLs, from data to text.

use crate::common::check;
use crate::common::random::Random;
use crate::{NO, YES};

/// Compares both forms, with an `out` that is longer than the text.
fn check_both(data: &[u8]) {
    let out = vec![0xa5; 2 * data.len() + 5];
    assert!(check::base64url_encode(data, NO, &out));
    assert!(check::base64url_encode(data, YES[0], &out));
}

#[test]
fn all_short_data() {
    check_both(&[]);
    for first in 0..=255 {
        check_both(&[first]);
        for second in 0..=255 {
            check_both(&[first, second]);
        }
    }
}

/// Every pair of neighbours in one group of three bytes.
#[test]
fn all_pairs_in_a_group() {
    let mut random = Random::new(71);
    for pair in 0..=u16::MAX {
        let [a, b] = pair.to_be_bytes();
        let [other] = random.array();
        check_both(&[a, b, other]);
        check_both(&[other, a, b]);
    }
}

#[test]
fn random_data() {
    let mut random = Random::new(72);
    for len in 0..=300 {
        for _ in 0..20 {
            check_both(&random.bytes(len));
        }
    }
    for len in [1000, 65_535, 65_536, 65_537, 100_000] {
        check_both(&random.bytes(len));
    }
}

#[test]
fn ways_to_pad() {
    let mut random = Random::new(73);
    for len in 0..=40 {
        let data = random.bytes(len);
        for padded in YES {
            assert!(check::base64url_encode(&data, padded, &[0xa5; 60]));
        }
    }
}

#[test]
fn all_out_sizes() {
    let mut random = Random::new(74);
    for len in (0..=60).chain([300]) {
        let data = random.bytes(len);
        let groups = len.div_ceil(3);
        for out_len in 0..=4 * groups + 10 {
            let out = random.bytes(out_len);
            let unpadded_fits = out_len >= len + groups;
            let padded_fits = out_len >= 4 * groups;
            assert_eq!(check::base64url_encode(&data, NO, &out), unpadded_fits);
            assert_eq!(check::base64url_encode(&data, YES[0], &out), padded_fits);
        }
    }
}
