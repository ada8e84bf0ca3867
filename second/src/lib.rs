//! Cryptomator vaults (format 8, SIV_GCM and SIV_CTRMAC) in plain Rust, and
//! below them AES with the modes CTR, GCM, CMAC and SIV and key wrap, SHA-1,
//! SHA-256 with HMAC, text encodings and JSON, written from the standards that
//! each module names.
//!
//! AES and GHASH work by table lookups at places that depend on the key and
//! the data, so the time they take can tell about them to a program that
//! shares the processor's cache. The encodings look up their data likewise.

#![forbid(unsafe_code)]

pub mod aes;
pub mod base32;
pub mod base64url;
pub mod cmac;
pub mod ctr;
pub mod ctr_hmac;
pub mod gcm;
pub mod ghash;
pub mod hex;
pub mod hmac;
pub mod json;
pub mod key_wrap;
mod places;
mod sha;
pub mod sha1;
pub mod sha256;
pub mod siv;
pub mod utf8;
pub mod vault;
