//! Why a call was refused.

use std::error::Error;
use std::fmt::{self, Display, Formatter};

/// What `at` is before a call and stays where row 13 has no place: no place in a
/// label is as great.
pub(crate) const NO_PLACE: u64 = u64::MAX;

/// The refusals, in the order in which a call tries those that speak of its
/// input, but that a name that is opened gets row 3 last. A refused call has
/// changed no buffer.
///
/// Rows 5 and 13 say at which place a text is broken. A place counts characters
/// from 0. It is the first character at which no well-formed text within the
/// limits can go on, whatever follows; or, where the text only ends too early,
/// its length. So what stands before the place can be right, and the character
/// at it cannot: the mistake is there, or before it.
#[derive(Clone, Copy, Debug, PartialEq, Eq, Hash)]
pub enum Refusal {
    /// Row 1: a key is not 32 bytes, a raw key is not 64, a nonce is not 12 in
    /// SIV_GCM or 16 in SIV_CTRMAC, or there is not one nonce for each chunk to
    /// write.
    KeyOrNonceSize,
    /// Row 2: the directory ID has more than 36 bytes, or one of 128 or more.
    DirectoryId,
    /// Row 3: the name has no bytes, or more than 1,020, or is not proper text:
    /// well-formed UTF-8 without a zero byte and without '/'. Opening a name
    /// gives it, once the synthetic IV was found right, where the sealed bytes
    /// are not proper text.
    Name,
    /// Row 4: no file of the combo has this length, or the cleartext is over
    /// 16,777,216 bytes; a header is not 68 bytes in SIV_GCM or 88 in
    /// SIV_CTRMAC; a chunk's cleartext is not 1 to 32,768 bytes, or its stored
    /// form not 29 to 32,796 in SIV_GCM or 49 to 32,816 in SIV_CTRMAC; a wrapped
    /// key is not 40; a read is through the reader of a refused file.
    Length,
    /// Row 5: the text of the (full) name is broken at this place, or has more
    /// characters than the threshold where the name is stored as it is.
    Text(u64),
    /// Row 6: the range ends behind the cleartext.
    Range,
    /// Row 7: a buffer has not the room for what goes into it.
    Room,
    /// Row 8: two chunks to write have the same nonce; or one of them has that
    /// of a chunk now in the file, where a file is mended.
    RepeatedNonce,
    /// Row 9: the header's tag (SIV_GCM) or MAC (SIV_CTRMAC) is wrong.
    Header,
    /// Row 10: the tag or MAC of this chunk is wrong, and it is the lowest such
    /// number of the chunks that the call needs.
    Chunk(u64),
    /// Row 11: the full name has no more characters than the threshold, or the
    /// stored name isn't its hash name.
    HashName,
    /// Row 12: the synthetic IV doesn't match.
    SyntheticIv,
    /// Row 13: the label has more than 4,096 bytes or is malformed: it is not
    /// three segments of unpadded base64url with zero spare bits; its header or
    /// payload is not a JSON object, or has values nested deeper than eight; or
    /// `alg`, `format`, `cipherCombo` or `shorteningThreshold` is missing, given
    /// twice or of the wrong kind. Where the size and the number of segments are
    /// right and a segment is not base64url, the place of the first such one is
    /// given, counted from the label's start; that of a segment that only ends
    /// too early is where the segment ends.
    Label(Option<u64>),
    /// Row 14: the label's `alg` isn't HS256.
    Alg,
    /// Row 15: the label's signature is wrong, as another raw key or damage can
    /// cause.
    Signature,
    /// Row 16: the label's `format` isn't 8.
    Format,
    /// Row 17: the label's `cipherCombo` is neither SIV_GCM nor SIV_CTRMAC.
    Combo,
    /// Row 18: the threshold is not 36 to 220.
    Threshold,
    /// Row 20: the check value of a wrapped key is wrong, as another
    /// key-encryption key (a mistyped password) or damage can cause.
    CheckValue,
}

impl Refusal {
    /// The row of the table of refusals: 1 to 18, or 20.
    pub fn row(self) -> u32 {
        match self {
            Refusal::KeyOrNonceSize => 1,
            Refusal::DirectoryId => 2,
            Refusal::Name => 3,
            Refusal::Length => 4,
            Refusal::Text(_) => 5,
            Refusal::Range => 6,
            Refusal::Room => 7,
            Refusal::RepeatedNonce => 8,
            Refusal::Header => 9,
            Refusal::Chunk(_) => 10,
            Refusal::HashName => 11,
            Refusal::SyntheticIv => 12,
            Refusal::Label(_) => 13,
            Refusal::Alg => 14,
            Refusal::Signature => 15,
            Refusal::Format => 16,
            Refusal::Combo => 17,
            Refusal::Threshold => 18,
            Refusal::CheckValue => 20,
        }
    }

    /// The refusal of a row of the table; `at` is the chunk of row 10, the place
    /// of row 5, and that of row 13 or [`NO_PLACE`].
    pub(crate) fn new(row: u32, at: u64) -> Self {
        match row {
            1 => Refusal::KeyOrNonceSize,
            2 => Refusal::DirectoryId,
            3 => Refusal::Name,
            4 => Refusal::Length,
            5 => Refusal::Text(at),
            6 => Refusal::Range,
            7 => Refusal::Room,
            8 => Refusal::RepeatedNonce,
            9 => Refusal::Header,
            10 => Refusal::Chunk(at),
            11 => Refusal::HashName,
            12 => Refusal::SyntheticIv,
            13 => Refusal::Label((at != NO_PLACE).then_some(at)),
            14 => Refusal::Alg,
            15 => Refusal::Signature,
            16 => Refusal::Format,
            17 => Refusal::Combo,
            18 => Refusal::Threshold,
            20 => Refusal::CheckValue,
            _ => unreachable!("the library has no row {row}"),
        }
    }
}

impl Display for Refusal {
    fn fmt(&self, f: &mut Formatter) -> fmt::Result {
        f.write_str(match self {
            Refusal::KeyOrNonceSize => "a key or nonce has the wrong size",
            Refusal::DirectoryId => "not a directory ID",
            Refusal::Name => "the name is empty, too long or not proper text",
            Refusal::Length => "the length is wrong",
            Refusal::Text(place) => {
                return write!(f, "the text of the name is broken at character {place}")
            }
            Refusal::Range => "the range ends behind the cleartext",
            Refusal::Room => "a buffer is too short",
            Refusal::RepeatedNonce => "a chunk nonce is used twice",
            Refusal::Header => "the header is not genuine",
            Refusal::Chunk(number) => return write!(f, "chunk {number} is not genuine"),
            Refusal::HashName => "the full name does not belong to the stored name",
            Refusal::SyntheticIv => "the name is not genuine",
            Refusal::Label(Some(place)) => {
                return write!(f, "the label is broken at character {place}")
            }
            Refusal::Label(None) => "not a vault's label",
            Refusal::Alg => "the label's algorithm is not HS256",
            Refusal::Signature => "the label is not genuine",
            Refusal::Format => "the vault's format is not 8",
            Refusal::Combo => "the combo is neither SIV_GCM nor SIV_CTRMAC",
            Refusal::Threshold => "the threshold is not 36 to 220",
            Refusal::CheckValue => "the wrapped key is not genuine",
        })
    }
}

impl Error for Refusal {}

#[cfg(test)]
mod tests {
    use super::*;

    const ROWS: [u32; 19] = [
        1, 2, 3, 4, 5, 6, 7, 8, 9, 10, 11, 12, 13, 14, 15, 16, 17, 18, 20,
    ];

    #[test]
    fn rows() {
        for row in ROWS {
            assert_eq!(Refusal::new(row, 7).row(), row);
            assert_eq!(Refusal::new(row, NO_PLACE).row(), row);
        }
        assert_eq!(Refusal::new(5, 7), Refusal::Text(7));
        assert_eq!(Refusal::new(10, u64::MAX), Refusal::Chunk(u64::MAX));
        assert_eq!(Refusal::new(13, 0), Refusal::Label(Some(0)));
        assert_eq!(Refusal::new(13, NO_PLACE), Refusal::Label(None));
    }

    #[test]
    fn texts() {
        let mut texts = ROWS.map(|row| Refusal::new(row, 3).to_string()).to_vec();
        assert_eq!(texts[4], "the text of the name is broken at character 3");
        assert_eq!(texts[9], "chunk 3 is not genuine");
        assert_eq!(texts[12], "the label is broken at character 3");
        texts.push(Refusal::Label(None).to_string());
        assert_eq!(texts[ROWS.len()], "not a vault's label");
        texts.sort();
        texts.dedup();
        assert_eq!(texts.len(), ROWS.len() + 1);
    }
}
