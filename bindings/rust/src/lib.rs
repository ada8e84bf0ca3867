//! Reads and writes Cryptomator vaults (vault format 8, cipher combos SIV_GCM
//! and SIV_CTRMAC) by `libskrapnefja.a`, whose functions are proved to meet
//! their contracts.
//!
//! Every function takes any bytes at all, comes back, and either writes its
//! whole answer to the start of the buffer and gives its length, or gives a
//! [`Refusal`] and changes no byte. A buffer that is longer than the answer
//! keeps its rest. [`Vault::mend`] has no such buffer: it changes the file that
//! it is lent, where it stands. [`Vault::open_reader`] has none either: it gives
//! a [`Reader`], of a refused file one of no bytes. There is no state, and
//! nothing is allocated.
//!
//! A [`Vault`] is made of the two master keys of the vault, `enc` and `mac`, 32
//! bytes each, which [`unwrap_key`] unwraps from the values in
//! `masterkey.cryptomator`, and of its [`Label`], which [`Label::open`] reads
//! from `vault.cryptomator`. Its methods and [`Reader::read`] are the calls.
//!
//! Nonces have [`Combo::nonce_len`] bytes. They and the content key of a file
//! are the caller's to choose at random, and never to use twice: GCM is broken
//! by a nonce that is used twice under one key. In SIV_CTRMAC the counter
//! starts at the nonce, so a repeated nonce repeats the keystream, and a nonce
//! that is a little higher than another repeats a part of it. A mend keeps the
//! content key of the file, so none of its nonces may ever have been used in
//! that file; row 8 knows only those that are in it now.
//!
//! ```
//! use skrapnefja::{Combo, Label, Refusal, Vault};
//!
//! fn read(vault: &Vault, file: &[u8]) -> Result<Vec<u8>, Refusal> {
//!     let mut cleartext = vec![0; vault.cleartext_length(file.len() as u64)?];
//!     vault.open_file(file, &mut cleartext)?;
//!     Ok(cleartext)
//! }
//!
//! let label = Label { combo: Combo::SivGcm, threshold: 220 };
//! let vault = Vault::new(&[0; 32], &[0; 32], label)?;
//! let refusal = read(&vault, b"not a file").unwrap_err();
//! assert_eq!(refusal, Refusal::Length);
//! assert_eq!(refusal.row(), 4);
//! # Ok::<(), Refusal>(())
//! ```
//!
//! `examples/unlock.rs` goes from these two files to an open file,
//! `examples/vault.rs` shows more of the calls, `examples/mend.rs` corrects a log
//! in place, and `examples/pages.rs` keeps one open. The library is looked for in
//! `target/staticlib` of the repository, where `make libraries` writes
//! it, or in the folder that the environment variable `SKRAPNEFJA_LIB_DIR` names
//! at build time.

#![warn(missing_docs)]

mod call;
mod chunk;
mod combo;
#[allow(missing_docs)]
pub mod ffi;
mod file;
mod header;
mod keys;
mod label;
mod lengths;
mod names;
mod reader;
mod refusal;
mod vault;

pub use chunk::CHUNK_LEN;
pub use combo::Combo;
pub use file::covering_chunks;
pub use header::OpenedHeader;
pub use keys::{unwrap_key, wrap_key, KEY_LEN, WRAPPED_KEY_LEN};
pub use label::{Label, MAX_LABEL_LEN, MAX_THRESHOLD, MIN_THRESHOLD, RAW_KEY_LEN};
pub use lengths::MAX_CLEARTEXT_LEN;
pub use names::{WrittenName, MAX_FULL_LEN, MAX_NAME_LEN, MAX_STORED_LEN, PATH_LEN};
pub use reader::{Reader, READER_KEYS_LEN};
pub use refusal::Refusal;
pub use vault::{Vault, VAULT_LEN};
