//! GHASH (SP 800-38D, section 6.4) with Shoup's table of sixteen multiples.
//!
//! A block is read as a big-endian integer, so that the top bit is the
//! coefficient of x^0 and multiplying by x is a shift to the right.
//! The field is GF(2^128), modulo x^128 + x^7 + x^2 + x + 1.

use crate::aes::BLOCK_LEN;

/// A hash key H, as its multiples by all polynomials of degree below 4.
pub struct GhashKey {
    multiples: [u128; 16],
}

impl GhashKey {
    pub fn new(h: &[u8; BLOCK_LEN]) -> Self {
        let mut multiples = [0; 16];
        let mut multiple = u128::from_be_bytes(*h);
        for one_bit in [8, 4, 2, 1] {
            multiples[one_bit] = multiple;
            multiple = times_x(multiple);
        }
        for n in 1usize..16 {
            let lowest_bit = n & n.wrapping_neg();
            multiples[n] = multiples[n ^ lowest_bit] ^ multiples[lowest_bit];
        }
        GhashKey { multiples }
    }

    /// The hash of both parts, each padded with zeros, and of their lengths.
    pub fn hash(&self, aad: &[u8], ciphertext: &[u8]) -> [u8; BLOCK_LEN] {
        let lengths = u128::from(bit_len(aad)) << 64 | u128::from(bit_len(ciphertext));
        let hash = self.absorb(self.absorb(0, aad), ciphertext);
        self.multiply(hash ^ lengths).to_be_bytes()
    }

    /// Takes the data into the hash, with zeros up to the next whole block.
    fn absorb(&self, mut hash: u128, data: &[u8]) -> u128 {
        let (blocks, rest) = data.as_chunks();
        for block in blocks {
            hash = self.multiply(hash ^ u128::from_be_bytes(*block));
        }
        if !rest.is_empty() {
            let mut block = [0; BLOCK_LEN];
            block[..rest.len()].copy_from_slice(rest);
            hash = self.multiply(hash ^ u128::from_be_bytes(block));
        }
        hash
    }

    /// a H, by the four words of `a`, which do not wait for each other.
    fn multiply(&self, a: u128) -> u128 {
        let mut product = Product { head: 0, tail: 0 };
        for i in 0..4 {
            let part = self.multiply_word((a >> (32 * i)) as u32);
            product = product.times_x_to(32).plus(part);
        }
        product.reduce()
    }

    /// Four bits a step, from the highest power of x down.
    #[inline(always)]
    fn multiply_word(&self, word: u32) -> Product {
        let mut product = Product { head: 0, tail: 0 };
        for i in 0..8 {
            let nibble = (word >> (4 * i)) as usize & 15;
            product = product.times_x_to(4);
            product.head ^= self.multiples[nibble];
        }
        product
    }
}

/// A polynomial not yet reduced: x^0 to x^127, and x^128 to x^255.
struct Product {
    head: u128,
    tail: u128,
}

impl Product {
    #[inline(always)]
    fn times_x_to(self, power: u32) -> Self {
        Product {
            head: self.head >> power,
            tail: self.tail >> power | self.head << (128 - power),
        }
    }

    #[inline(always)]
    fn plus(self, other: Self) -> Self {
        Product {
            head: self.head ^ other.head,
            tail: self.tail ^ other.tail,
        }
    }

    /// Modulo the polynomial, x^128 is 1 + x + x^2 + x^7: the tail is added
    /// to the head in four places. What this moves past x^127 goes the same
    /// way, and so is added to the tail first.
    #[inline(always)]
    fn reduce(self) -> u128 {
        let tail = self.tail ^ self.tail << 127 ^ self.tail << 126 ^ self.tail << 121;
        self.head ^ tail ^ tail >> 1 ^ tail >> 2 ^ tail >> 7
    }
}

fn times_x(a: u128) -> u128 {
    (a >> 1) ^ ((a & 1) * (0xe1 << 120))
}

fn bit_len(data: &[u8]) -> u64 {
    data.len() as u64 * 8
}

#[cfg(test)]
mod tests {
    use super::*;

    /// SP 800-38D, algorithm 1, one bit a step.
    fn multiply_by_bits(a: u128, h: u128) -> u128 {
        let mut product = 0;
        let mut multiple = h;
        for i in 0..128 {
            if a << i >> 127 == 1 {
                product ^= multiple;
            }
            multiple = times_x(multiple);
        }
        product
    }

    #[test]
    fn multiply_agrees_with_bits() {
        let mut h = 0x66e94bd4ef8a2c3b884cfa59ca342b2eu128;
        let key = GhashKey::new(&h.to_be_bytes());
        for i in 0..128 {
            assert_eq!(key.multiply(1 << i), multiply_by_bits(1 << i, h));
        }
        for _ in 0..1000 {
            let a = h.wrapping_mul(0x9e3779b97f4a7c15f39cc0605cedc835);
            let product = GhashKey::new(&h.to_be_bytes()).multiply(a);
            assert_eq!(product, multiply_by_bits(a, h));
            h = product ^ a;
        }
    }

    /// Test case 2 of the GCM specification.
    #[test]
    fn hash_example() {
        let h = 0x66e94bd4ef8a2c3b884cfa59ca342b2eu128;
        let ciphertext = 0x0388dace60b6a392f328c2b971b2fe78u128;
        let expected = 0xf38cbb1ad69223dcc3457ae5b6b0f885u128;
        let key = GhashKey::new(&h.to_be_bytes());
        let hash = key.hash(&[], &ciphertext.to_be_bytes());
        assert_eq!(hash, expected.to_be_bytes());
    }
}
