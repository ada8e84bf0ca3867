//! Vaults of format 8 with the cipher combos SIV_GCM and SIV_CTRMAC, their
//! labels, and the wrapping of their master keys.
//!
//! A call tries its rows of the table of refusals in order, and writes only
//! when none of them applies. It gives the length of what it wrote; a buffer
//! that is longer keeps its rest. A mend changes a file where it stands. A reader
//! keeps a file open: where none is made, the reader of no bytes is given.

mod bytes;
mod chunk;
mod cipher;
mod combo;
mod directory;
mod file;
mod header;
mod keys;
mod label;
mod lengths;
mod master_key;
mod mend;
mod name;
mod nonces;
mod range;
mod read;
mod reader;
mod record;
mod refusal;
#[cfg(test)]
mod samples;
mod sizes;
mod text;
mod threshold;

pub use bytes::{make_vault, VAULT_LEN};
pub use combo::Combo;
pub use label::open_label;
pub use lengths::{CHUNK_LEN, MAX_CLEARTEXT_LEN};
pub use master_key::{unwrap_key, wrap_key};
pub use name::WrittenName;
pub use reader::{open_reader, Reader, READER_KEYS_LEN};
pub use record::Vault;
pub use refusal::Refusal;
