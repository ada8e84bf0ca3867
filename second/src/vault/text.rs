//! The text forms of encrypted names.

use crate::base64url::{self, GROUP_LEN};
use crate::siv::IV_LEN;
use crate::{places, sha1};

/// The length of every hash name.
pub const HASH_NAME_LEN: usize = 32;

/// The longest name, in bytes.
pub const MAX_NAME_LEN: usize = 1020;

/// The longest full name.
pub const MAX_FULL_LEN: usize = full_len(MAX_NAME_LEN);

const FULL_SUFFIX: &str = ".c9r";
const HASH_SUFFIX: &str = ".c9s";

/// So many characters stand for enough bytes, whatever padding is behind them.
const ENOUGH: usize = 24;

/// The length of the full name of a name of this length.
pub const fn full_len(name_len: usize) -> usize {
    (IV_LEN + name_len).div_ceil(3) * 4 + FULL_SUFFIX.len()
}

/// The full name of a sealed name.
pub fn full_name(sealed: &[u8]) -> String {
    base64url::encode(sealed, true) + FULL_SUFFIX
}

/// Gives the sealed name of what [`full_name`] made of a name of 1 to
/// [`MAX_NAME_LEN`] bytes, if it has no more characters than the limit. For
/// anything else it gives the place at which the text is broken.
pub fn sealed_name(full: &[u8], limit: usize) -> Result<Vec<u8>, usize> {
    decode(full, limit).ok_or_else(|| place(full, limit))
}

fn decode(full: &[u8], limit: usize) -> Option<Vec<u8>> {
    let text = full.strip_suffix(FULL_SUFFIX.as_bytes())?;
    if full.len() > limit {
        return None;
    }
    let sealed = base64url::decode(text, true)?;
    let lengths = IV_LEN + 1..=IV_LEN + MAX_NAME_LEN;
    lengths.contains(&sealed.len()).then_some(sealed)
}

/// The place of the first character with which no full name within the limit
/// begins, or the length of a text that only ends too early.
///
/// The continuations that are tried are enough, as they are for base64url: what
/// follows a start is characters of the alphabet, padding and the suffix, or the
/// rest of these. Each of these characters can be an `A`. Four of them can be left
/// out as long as one remains and the text still has [`ENOUGH`] before the padding;
/// it only gets shorter by this.
fn place(full: &[u8], limit: usize) -> usize {
    let endings = ["==.c9r", "=.c9r", ".c9r", "c9r", "9r", "r", ""];
    places::place(full, |start| {
        let most = ENOUGH.saturating_sub(start.len()) + GROUP_LEN;
        places::goes_on(start, most, &endings, |text| decode(text, limit).is_some())
    })
}

/// What is stored in place of a full name that is too long.
pub fn hash_name(full: &[u8]) -> String {
    base64url::encode(&sha1::digest(full), true) + HASH_SUFFIX
}

#[cfg(test)]
mod place_tests;

#[cfg(test)]
mod tests {
    use super::*;

    #[test]
    fn lengths() {
        for (name, full) in [(1, 28), (146, 220), (147, 224), (1020, 1388)] {
            assert_eq!(full_len(name), full);
        }
        for name in 1..=MAX_NAME_LEN {
            let sealed = vec![0xfb; IV_LEN + name];
            let full = full_name(&sealed);
            assert_eq!(full.len(), full_len(name));
            assert_eq!(sealed_name(full.as_bytes(), full.len()), Ok(sealed));
            assert_eq!(hash_name(full.as_bytes()).len(), HASH_NAME_LEN);
        }
    }

    #[test]
    fn too_short_or_too_long() {
        for sealed in [0, 1, 15, 16, 1037, 1038, 1039, 2000] {
            let full = full_name(&vec![0; sealed]);
            assert!(sealed_name(full.as_bytes(), full.len()).is_err());
        }
    }

    #[test]
    fn other_suffixes() {
        let text = "A".repeat(24);
        let opens = |text: String| sealed_name(text.as_bytes(), MAX_FULL_LEN).is_ok();
        assert!(opens(format!("{text}.c9r")));
        for suffix in [
            "", ".c9s", ".C9R", "c9r", ".c9", ".c9r.c9r", ".c9r ", "=.c9r",
        ] {
            assert!(!opens(format!("{text}{suffix}")));
        }
    }
}
