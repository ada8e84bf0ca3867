//! Key wrap (RFC 3394), with the registers by their index.
//!
//! A register is half a block, read as a big-endian integer.

use crate::aes::{Aes, InverseAes, BLOCK_LEN};

/// The bytes in a register.
pub const REGISTER_LEN: usize = 8;

/// The check value that wrapping starts from, and unwrapping must end at
/// (section 2.2.3.1).
pub const INITIAL_VALUE: u64 = 0xa6a6a6a6a6a6a6a6;

/// How often wrapping goes through all registers.
const PASSES: usize = 6;

/// Gives the wrapped key, which has a register more.
///
/// # Panics
/// If the key is not made of two registers or more.
pub fn wrap<const ROUND_KEYS: usize>(cipher: &Aes<ROUND_KEYS>, key: &[u8]) -> Vec<u8> {
    wrap_from(cipher, INITIAL_VALUE, key)
}

/// The same with a check value of choice (section 2.2.1).
///
/// # Panics
/// If the key is not made of two registers or more.
pub fn wrap_from<const ROUND_KEYS: usize>(
    cipher: &Aes<ROUND_KEYS>,
    check_value: u64,
    key: &[u8],
) -> Vec<u8> {
    let key = registers(key, 2).expect("a key of two registers or more");
    let n = key.len();
    let mut r = [&[check_value][..], &key].concat();
    for j in 0..PASSES {
        for i in 1..=n {
            let (high, low) = split(cipher.encrypt(&join(r[0], r[i])));
            r[0] = high ^ (n * j + i) as u64;
            r[i] = low;
        }
    }
    to_bytes(&r)
}

/// Gives the key of what [`wrap`] made, and `None` for anything else
/// (section 2.2.2).
pub fn unwrap<const ROUND_KEYS: usize>(
    cipher: &Aes<ROUND_KEYS>,
    wrapped: &[u8],
) -> Option<Vec<u8>> {
    let mut r = registers(wrapped, 3)?;
    let n = r.len() - 1;
    let inverse = InverseAes::new(cipher);
    for j in (0..PASSES).rev() {
        for i in (1..=n).rev() {
            let high = r[0] ^ (n * j + i) as u64;
            (r[0], r[i]) = split(inverse.decrypt(&join(high, r[i])));
        }
    }
    (r[0] == INITIAL_VALUE).then(|| to_bytes(&r[1..]))
}

/// The registers of some bytes, if they are whole and not fewer than this.
fn registers(bytes: &[u8], least: usize) -> Option<Vec<u64>> {
    let (registers, rest) = bytes.as_chunks::<REGISTER_LEN>();
    let fits = rest.is_empty() && registers.len() >= least;
    fits.then(|| registers.iter().copied().map(u64::from_be_bytes).collect())
}

fn to_bytes(registers: &[u64]) -> Vec<u8> {
    registers
        .iter()
        .copied()
        .flat_map(u64::to_be_bytes)
        .collect()
}

fn join(high: u64, low: u64) -> [u8; BLOCK_LEN] {
    (u128::from(high) << 64 | u128::from(low)).to_be_bytes()
}

fn split(block: [u8; BLOCK_LEN]) -> (u64, u64) {
    let block = u128::from_be_bytes(block);
    ((block >> 64) as u64, block as u64)
}

#[cfg(test)]
mod tests {
    use super::*;
    use crate::aes::{Aes128, Aes256};
    use crate::hex;

    fn kek<const N: usize>() -> [u8; N] {
        std::array::from_fn(|i| i as u8)
    }

    /// The key of so many bytes in section 4.
    fn key(len: usize) -> Vec<u8> {
        (0..16).map(|i| 0x11 * i).chain(0..16).take(len).collect()
    }

    fn example<const ROUND_KEYS: usize>(cipher: Aes<ROUND_KEYS>, len: usize, wrapped: &str) {
        let wrapped = hex::decode(wrapped).expect("digits");
        assert_eq!(wrap(&cipher, &key(len)), wrapped);
        assert_eq!(unwrap(&cipher, &wrapped), Some(key(len)));
    }

    /// Sections 4.1, 4.3, 4.5 and 4.6: those without a key of 192 bits to wrap under.
    #[test]
    fn examples() {
        let wrapped = "1fa68b0a8112b447aef34bd8fb5a7b829d3e862371d2cfe5";
        example(Aes128::new(&kek()), 16, wrapped);
        let wrapped = "64e8c3f9ce0f5ba263e9777905818a2a93c8191e7d6e8ae7";
        example(Aes256::new(&kek()), 16, wrapped);
        let wrapped = "a8f9bc1612c68b3ff6e6f4fbe30e71e4\
                       769c8b80a32cb8958cd5d17d6b254da1";
        example(Aes256::new(&kek()), 24, wrapped);
        let wrapped = "28c9f404c4b810f4cbccb35cfb87f826\
                       3f5786e2d80ed326cbc7f0e71a99f43bfb988b9b7a02dd21";
        example(Aes256::new(&kek()), 32, wrapped);
    }

    /// With 43 registers or more the last numbers have more than one byte.
    #[test]
    fn any_number_of_registers() {
        let cipher = Aes256::new(&kek());
        for registers in 2..=100 {
            let key = vec![registers; REGISTER_LEN * usize::from(registers)];
            let wrapped = wrap(&cipher, &key);
            assert_eq!(wrapped.len(), key.len() + REGISTER_LEN);
            assert_eq!(unwrap(&cipher, &wrapped), Some(key));
        }
    }

    #[test]
    fn wrong_check_values() {
        let cipher = Aes256::new(&kek());
        for bit in 0..64 {
            let wrapped = wrap_from(&cipher, INITIAL_VALUE ^ 1 << bit, &key(32));
            assert_eq!(unwrap(&cipher, &wrapped), None);
        }
    }

    #[test]
    fn every_bit() {
        let cipher = Aes256::new(&kek());
        let wrapped = wrap(&cipher, &key(32));
        for bit in 0..8 * wrapped.len() {
            let mut damaged = wrapped.clone();
            damaged[bit / 8] ^= 1 << (bit % 8);
            assert_eq!(unwrap(&cipher, &damaged), None);
        }
        for bit in 0..256 {
            let mut kek = kek::<32>();
            kek[bit / 8] ^= 1 << (bit % 8);
            assert_eq!(unwrap(&Aes256::new(&kek), &wrapped), None);
        }
    }

    /// No key of one register or none is wrapped, and no part of one.
    #[test]
    fn lengths() {
        let cipher = Aes256::new(&kek());
        let wrapped = [wrap(&cipher, &key(32)), vec![0; 20]].concat();
        for len in 0..=wrapped.len() {
            let key = (len == 40).then(|| key(32));
            assert_eq!(unwrap(&cipher, &wrapped[..len]), key);
        }
    }

    #[test]
    #[should_panic(expected = "two registers or more")]
    fn one_register() {
        wrap(&Aes256::new(&kek()), &key(8));
    }

    #[test]
    #[should_panic(expected = "two registers or more")]
    fn part_of_a_register() {
        wrap(&Aes256::new(&kek()), &key(31));
    }
}
