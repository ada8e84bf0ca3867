//! Sizes of keys, nonces and buffers.

use super::Refusal;

/// A key or nonce by its size (row 1).
pub fn sized<const N: usize>(bytes: &[u8]) -> Result<&[u8; N], Refusal> {
    bytes.try_into().map_err(|_| Refusal::KeyOrNonceSize)
}

/// Whether the buffer has room for an answer of this length (row 7).
pub fn room(out: &[u8], len: usize) -> Result<(), Refusal> {
    Refusal::Room.unless(out.len() >= len)
}

/// Writes the answer to the start of a buffer that has room for it.
pub fn put(out: &mut [u8], answer: &[u8]) -> usize {
    out[..answer.len()].copy_from_slice(answer);
    answer.len()
}
