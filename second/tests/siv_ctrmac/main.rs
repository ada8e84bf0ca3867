//! `second` writes and mends SIV_CTRMAC as its document has it.

#[path = "../common"]
mod common {
    pub mod random;
}

mod inputs;
mod plain;

use common::random::Random;
use inputs::Inputs;

/// The bytes of a nonce.
const NONCE: usize = 16;

/// So many counters before the border of this many low bits; from the border
/// of all 128 the next is zero.
fn before(border: u32, counters: u128) -> [u8; NONCE] {
    let border = 1u128.checked_shl(border).unwrap_or(0);
    border.wrapping_sub(counters).to_be_bytes()
}

#[test]
fn lengths() {
    let random = &mut Random::new(1);
    let edges = [32_767, 32_768, 32_769, 65_535, 65_536, 65_537];
    for len in (0..200).chain(edges) {
        Inputs::new(random, len).check();
    }
    for _ in 0..20 {
        let len = random.below(100_000);
        Inputs::new(random, len).check();
    }
}

#[test]
fn longest() {
    Inputs::new(&mut Random::new(2), 16_777_216).check();
}

/// Ranges of some bytes, within a chunk and over borders.
#[test]
fn mends() {
    let random = &mut Random::new(6);
    for (len, range) in [
        (1, 0..1),
        (40, 0..40),
        (40, 17..33),
        (32_769, 32_768..32_769),
        (70_000, 0..1),
        (70_000, 32_767..32_769),
        (70_000, 40_000..69_999),
        (100_000, 32_760..65_540),
        (100_000, 0..100_000),
    ] {
        Inputs::new(random, len).check_mend(random, range);
    }
}

/// At every block of a header.
#[test]
fn counters_of_headers() {
    let random = &mut Random::new(3);
    for border in [8, 32, 64, 96, 128] {
        for counters in 0..=4 {
            let mut inputs = Inputs::new(random, 20);
            inputs.header_nonce = before(border, counters);
            inputs.check();
        }
    }
}

/// At every block of a chunk of ten, the last of them cut.
#[test]
fn counters_of_chunks() {
    let random = &mut Random::new(4);
    for border in [8, 32, 64, 96, 128] {
        for counters in 0..=10 {
            let mut inputs = Inputs::new(random, 155);
            inputs.nonces[0] = before(border, counters);
            inputs.check();
        }
    }
}

/// At some of the 2,048 blocks of a whole chunk.
#[test]
fn counters_of_whole_chunks() {
    let random = &mut Random::new(5);
    for border in [32, 64, 128] {
        for counters in [1, 2, 3, 4, 5, 1000, 2047, 2048, 2049] {
            let mut inputs = Inputs::new(random, 32_768 + 20);
            inputs.nonces[0] = before(border, counters);
            inputs.nonces[1] = before(border, 1 + counters % 2);
            inputs.nonces[1][0] ^= 1;
            inputs.check();
        }
    }
}
