//! Faults: changes to a case so that a row applies.

mod content;
mod keys;
mod labels;
mod mends;
mod mutations;
mod names;
mod room;
mod scrambles;
mod vaults;

use crate::case::Case;
use crate::common::random::Random;

pub use mutations::mutate;
pub use names::stray;
pub use scrambles::scramble;

/// What can be wrong with what is lent, by the rows of the table. Row 1 is two
/// of them: the size of a vault is looked at before its threshold and its combo,
/// and every other size after them. The keys of a reader are looked at like a
/// vault, and can be those of no bytes.
#[derive(Clone, Copy, Debug, PartialEq, Eq)]
pub enum Fault {
    VaultSize,
    Threshold,
    Combo,
    NoReader,
    KeyOrNonceSize,
    DirectoryId,
    Name,
    Length,
    Text,
    Range,
    Room,
    RepeatedNonce,
    Header,
    Chunk,
    HashName,
    SyntheticIv,
    Label,
    Alg,
    Signature,
    Format,
    CheckValue,
}

impl Fault {
    pub fn row(self) -> u32 {
        match self {
            Fault::VaultSize | Fault::KeyOrNonceSize => 1,
            Fault::DirectoryId => 2,
            Fault::Name => 3,
            Fault::NoReader | Fault::Length => 4,
            Fault::Text => 5,
            Fault::Range => 6,
            Fault::Room => 7,
            Fault::RepeatedNonce => 8,
            Fault::Header => 9,
            Fault::Chunk => 10,
            Fault::HashName => 11,
            Fault::SyntheticIv => 12,
            Fault::Label => 13,
            Fault::Alg => 14,
            Fault::Signature => 15,
            Fault::Format => 16,
            Fault::Combo => 17,
            Fault::Threshold => 18,
            Fault::CheckValue => 20,
        }
    }
}

/// Makes a fault in a case that has none of those that are looked for before
/// it. Gives `false`, and changes nothing, if it can't: not every case has a
/// chunk, say.
pub fn spoil(case: &mut Case, fault: Fault, random: &mut Random) -> bool {
    match fault {
        Fault::VaultSize => vaults::size(case, random),
        Fault::Combo => vaults::combo(case, random),
        Fault::Threshold => vaults::threshold(case, random),
        Fault::NoReader => vaults::no_reader(case, random),
        Fault::KeyOrNonceSize => keys::key_or_nonce_size(case, random),
        Fault::DirectoryId => names::directory_id(case, random),
        Fault::Name => names::name(case, random),
        Fault::Length => content::length(case, random),
        Fault::Text => names::text(case, random),
        Fault::Range => content::range(case, random),
        Fault::Room => return room::room(case, random),
        Fault::RepeatedNonce => return content::repeated_nonce(case, random),
        Fault::Header => content::header(case, random),
        Fault::Chunk => return content::chunk(case, random),
        Fault::HashName => names::hash_name(case, random),
        Fault::SyntheticIv => return names::synthetic_iv(case, random),
        Fault::Label => labels::label(case, random),
        Fault::Alg => labels::alg(case, random),
        Fault::Signature => labels::signature(case, random),
        Fault::Format => labels::format(case, random),
        Fault::CheckValue => keys::check_value(case, random),
    }
    true
}

/// Flips one bit.
pub fn flip(bytes: &mut [u8], random: &mut Random) {
    let bit = random.below(8 * bytes.len());
    bytes[bit / 8] ^= 1 << (bit % 8);
}

/// Cuts off bytes, or adds random ones.
pub fn resize(bytes: &mut Vec<u8>, len: usize, random: &mut Random) {
    let missing = len.saturating_sub(bytes.len());
    bytes.truncate(len);
    bytes.extend(random.bytes(missing));
}
