//! The block cipher AES (FIPS 197), with keys of 128 and 256 bits.
//!
//! The state is four words, one for each column, with row 0 in the top byte.

mod inverse;
mod tables;

pub use inverse::InverseAes;
use tables::{double, S_BOX, T};

/// The bytes in a key of AES-256.
pub const KEY_LEN: usize = 32;

/// The bytes in a block, for keys of any length.
pub const BLOCK_LEN: usize = 16;

type State = [u32; 4];

/// An expanded key: one round key more than there are rounds.
pub struct Aes<const ROUND_KEYS: usize> {
    round_keys: [State; ROUND_KEYS],
}

pub type Aes128 = Aes<11>;
pub type Aes256 = Aes<15>;

impl Aes128 {
    pub fn new(key: &[u8; 16]) -> Self {
        Aes::expand(key)
    }
}

impl Aes256 {
    pub fn new(key: &[u8; KEY_LEN]) -> Self {
        Aes::expand(key)
    }
}

impl<const ROUND_KEYS: usize> Aes<ROUND_KEYS> {
    /// KeyExpansion, with a key of the size that has so many round keys.
    fn expand(key: &[u8]) -> Self {
        let key_words = key.len() / 4;
        let mut round_keys = [[0; 4]; ROUND_KEYS];
        let words = round_keys.as_flattened_mut();
        for (word, bytes) in words.iter_mut().zip(key.as_chunks().0) {
            *word = u32::from_be_bytes(*bytes);
        }
        let mut round_constant = 1;
        for i in key_words..words.len() {
            let mut word = words[i - 1];
            if i % key_words == 0 {
                word = sub_word(word.rotate_left(8)) ^ u32::from(round_constant) << 24;
                round_constant = double(round_constant);
            } else if key_words == 8 && i % key_words == 4 {
                word = sub_word(word);
            }
            words[i] = words[i - key_words] ^ word;
        }
        Aes { round_keys }
    }

    pub fn encrypt(&self, block: &[u8; BLOCK_LEN]) -> [u8; BLOCK_LEN] {
        let mut blocks = [*block];
        self.encrypt_blocks(&mut blocks);
        blocks[0]
    }

    /// Encrypts each block in place. The blocks go through each round
    /// together, which keeps more lookups under way than one block can.
    #[inline]
    pub fn encrypt_blocks<const N: usize>(&self, blocks: &mut [[u8; BLOCK_LEN]; N]) {
        let [first, middle @ .., last] = &self.round_keys[..] else {
            unreachable!("there are 11 or 15 round keys");
        };
        let mut states = blocks.map(|block| add(to_state(&block), first));
        for round_key in middle {
            for state in &mut states {
                *state = add(round(*state), round_key);
            }
        }
        *blocks = states.map(|state| to_bytes(add(last_round(state), last)));
    }
}

fn sub_word(word: u32) -> u32 {
    u32::from_be_bytes(word.to_be_bytes().map(|byte| S_BOX[usize::from(byte)]))
}

#[inline(always)]
fn to_state(block: &[u8; BLOCK_LEN]) -> State {
    let (columns, _) = block.as_chunks();
    std::array::from_fn(|i| u32::from_be_bytes(columns[i]))
}

#[inline(always)]
fn to_bytes(state: State) -> [u8; BLOCK_LEN] {
    let mut block = [0; BLOCK_LEN];
    for (bytes, word) in block.as_chunks_mut().0.iter_mut().zip(state) {
        *bytes = word.to_be_bytes();
    }
    block
}

/// AddRoundKey.
#[inline(always)]
fn add(state: State, round_key: &State) -> State {
    std::array::from_fn(|i| state[i] ^ round_key[i])
}

/// SubBytes, ShiftRows and MixColumns.
#[inline(always)]
fn round(state: State) -> State {
    std::array::from_fn(|i| {
        let [a, b, c, d] = shifted_column(&state, i);
        T[0][a] ^ T[1][b] ^ T[2][c] ^ T[3][d]
    })
}

/// SubBytes and ShiftRows.
#[inline(always)]
fn last_round(state: State) -> State {
    std::array::from_fn(|i| u32::from_be_bytes(shifted_column(&state, i).map(|byte| S_BOX[byte])))
}

/// The bytes that ShiftRows brings to column `i`, as indices.
#[inline(always)]
fn shifted_column(state: &State, i: usize) -> [usize; 4] {
    std::array::from_fn(|row| usize::from(state[(i + row) % 4].to_be_bytes()[row]))
}

#[cfg(test)]
mod tests {
    use super::*;

    /// FIPS 197, appendix A.1.
    #[test]
    fn key_expansion_128() {
        let key = 0x2b7e151628aed2a6abf7158809cf4f3cu128.to_be_bytes();
        let cipher = Aes128::new(&key);
        let second = [0xa0fafe17, 0x88542cb1, 0x23a33939, 0x2a6c7605];
        let last = [0xd014f9a8, 0xc9ee2589, 0xe13f0cc8, 0xb6630ca6];
        assert_eq!(cipher.round_keys[1], second);
        assert_eq!(cipher.round_keys.last(), Some(&last));
    }

    /// FIPS 197, appendix A.3.
    #[test]
    fn key_expansion_256() {
        let key = [
            0x60, 0x3d, 0xeb, 0x10, 0x15, 0xca, 0x71, 0xbe, 0x2b, 0x73, 0xae, 0xf0, 0x85, 0x7d,
            0x77, 0x81, 0x1f, 0x35, 0x2c, 0x07, 0x3b, 0x61, 0x08, 0xd7, 0x2d, 0x98, 0x10, 0xa3,
            0x09, 0x14, 0xdf, 0xf4,
        ];
        let cipher = Aes256::new(&key);
        let third = [0x9ba35411, 0x8e6925af, 0xa51a8b5f, 0x2067fcde];
        let last = [0xfe4890d1, 0xe6188d0b, 0x046df344, 0x706c631e];
        assert_eq!(cipher.round_keys[2], third);
        assert_eq!(cipher.round_keys.last(), Some(&last));
    }

    /// FIPS 197, appendices C.1 and C.3.
    #[test]
    fn cipher_examples() {
        let block = std::array::from_fn(|i| 0x11 * i as u8);
        let key = std::array::from_fn(|i| i as u8);
        let expected = 0x69c4e0d86a7b0430d8cdb78070b4c55au128;
        assert_eq!(Aes128::new(&key).encrypt(&block), expected.to_be_bytes());
        let key = std::array::from_fn(|i| i as u8);
        let expected = 0x8ea2b7ca516745bfeafc49904b496089u128;
        assert_eq!(Aes256::new(&key).encrypt(&block), expected.to_be_bytes());
    }

    #[test]
    fn blocks_together_are_blocks_alone() {
        let cipher = Aes256::new(&[7; KEY_LEN]);
        let blocks: [_; 5] = std::array::from_fn(|i| [i as u8; BLOCK_LEN]);
        let mut together = blocks;
        cipher.encrypt_blocks(&mut together);
        assert_eq!(together, blocks.map(|block| cipher.encrypt(&block)));
    }
}
