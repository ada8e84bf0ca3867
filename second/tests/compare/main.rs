//! Compares the static library with `second`: the status of each call, and
//! every byte of the buffer after it.

#[path = "../common"]
mod common {
    pub mod check;
    pub mod damage;
    pub mod gcm_message;
    pub mod primitives;
    pub mod random;
    pub mod siv_message;
    pub mod text;
}

mod addresses;
mod aes;
mod base32;
mod base64url_decode;
mod base64url_encode;
mod cmac;
mod ctr;
mod gcm;
mod hmac;
mod sha1;
mod sha256;
mod siv;
mod utf8;

/// Bytes that are likely to meet special cases.
const FILLINGS: [u8; 4] = [0x00, 0x01, 0x80, 0xff];

/// The number that means no at the C boundary.
const NO: u32 = 0;

/// Some of all others, which mean yes.
const YES: [u32; 5] = [1, 2, 0x100, 0x8000_0000, u32::MAX];
