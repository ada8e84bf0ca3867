//! The table of refusals.

/// Why a call wrote nothing, by the rows of the table.
#[derive(Clone, Copy, Debug, PartialEq, Eq)]
pub enum Refusal {
    /// A key is not 32 bytes, a raw key not 64, a nonce is not as long as the
    /// combo's, there is not one of these for each chunk, a vault is not 66
    /// bytes, or the keys of a reader are not 65.
    KeyOrNonceSize,
    /// The directory ID has more than 36 bytes, or one of 128 or more.
    DirectoryId,
    /// The name has no bytes or more than 1,020, or is not proper text.
    Name,
    /// No file, header, chunk or wrapped key has this length, or a reader is that
    /// of no bytes.
    Length,
    /// The text form of the name is broken, or longer than the threshold for a
    /// plain one: at this place, it is no longer the start of one that is right,
    /// or it ends too early, and the place is its length.
    Text(usize),
    /// The range ends behind the cleartext.
    Range,
    /// A buffer has not the room for what goes into it.
    Room,
    /// Two chunks to write have the same nonce, or one of a file to mend has a
    /// nonce that is there already.
    RepeatedNonce,
    /// The header's tag is wrong.
    Header,
    /// The tag of the chunk with this number is wrong, and of none before it
    /// that the call needs.
    Chunk(u64),
    /// The full name need not be shortened, or has another short name.
    HashName,
    /// The synthetic IV is not that of the name.
    SyntheticIv,
    /// The label is too long or no label, is nested too deep, or has not each
    /// of its members once and of the right kind. If a segment is broken, the
    /// place at which the first of these is, in the label.
    Label(Option<usize>),
    /// The label is not signed by HS256.
    Alg,
    /// The label's signature is wrong.
    Signature,
    /// The label is not of format 8.
    Format,
    /// The combo, by its number or name, is neither SIV_GCM nor SIV_CTRMAC.
    Combo,
    /// The threshold is not 36 to 220.
    Threshold,
    /// The check value of the wrapped key is wrong.
    CheckValue,
}

impl Refusal {
    pub fn row(self) -> u32 {
        match self {
            Refusal::KeyOrNonceSize => 1,
            Refusal::DirectoryId => 2,
            Refusal::Name => 3,
            Refusal::Length => 4,
            Refusal::Text(_) => 5,
            Refusal::Range => 6,
            Refusal::Room => 7,
            Refusal::RepeatedNonce => 8,
            Refusal::Header => 9,
            Refusal::Chunk(_) => 10,
            Refusal::HashName => 11,
            Refusal::SyntheticIv => 12,
            Refusal::Label(_) => 13,
            Refusal::Alg => 14,
            Refusal::Signature => 15,
            Refusal::Format => 16,
            Refusal::Combo => 17,
            Refusal::Threshold => 18,
            Refusal::CheckValue => 20,
        }
    }

    /// For a row that applies unless the condition holds.
    pub(super) fn unless(self, condition: bool) -> Result<(), Refusal> {
        if condition {
            Ok(())
        } else {
            Err(self)
        }
    }
}
