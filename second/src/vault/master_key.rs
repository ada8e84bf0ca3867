//! Master keys, wrapped as `masterkey.cryptomator` has them.

use super::sizes::{put, room, sized};
use super::Refusal;
use crate::aes::{Aes256, KEY_LEN};
use crate::key_wrap::{self, REGISTER_LEN};

const WRAPPED_LEN: usize = KEY_LEN + REGISTER_LEN;

/// Wraps a key under the key-encryption key.
pub fn wrap_key(kek: &[u8], key: &[u8], out: &mut [u8]) -> Result<usize, Refusal> {
    let kek = sized(kek)?;
    let key: &[u8; KEY_LEN] = sized(key)?;
    room(out, WRAPPED_LEN)?;
    Ok(put(out, &key_wrap::wrap(&Aes256::new(kek), key)))
}

pub fn unwrap_key(kek: &[u8], wrapped: &[u8], out: &mut [u8]) -> Result<usize, Refusal> {
    let kek = sized(kek)?;
    Refusal::Length.unless(wrapped.len() == WRAPPED_LEN)?;
    room(out, KEY_LEN)?;
    let key = key_wrap::unwrap(&Aes256::new(kek), wrapped).ok_or(Refusal::CheckValue)?;
    Ok(put(out, &key))
}

#[cfg(test)]
mod tests {
    use super::*;
    use crate::hex;

    /// A value of the stock program's tests, by the password "asd".
    #[test]
    fn stock_program() {
        let kek = "8cf4a04ec845f428b2f9f9e1d9df08d26211d9afe2f55fdedfcbb5e75aef34f9";
        let expected = "98cfaaa10fa8d2abcf4e20c0658b7e7e5682dd66\
                        e9340c75b135da533c70a72d0cf42b63e938a1fd";
        let [kek, expected] = [kek, expected].map(|text| hex::decode(text).expect("digits"));
        let mut out = [7; WRAPPED_LEN + 2];
        assert_eq!(wrap_key(&kek, &[0; 32], &mut out), Ok(WRAPPED_LEN));
        assert_eq!(out[..WRAPPED_LEN], expected);
        assert_eq!(out[WRAPPED_LEN..], [7; 2]);
        let mut out = [7; KEY_LEN + 2];
        assert_eq!(unwrap_key(&kek, &expected, &mut out), Ok(KEY_LEN));
        assert_eq!(out[..KEY_LEN], [0; KEY_LEN]);
        assert_eq!(out[KEY_LEN..], [7; 2]);
    }

    /// Each row with all that are tried after it.
    #[test]
    fn rows() {
        for (kek, wrapped, room, refusal) in [
            (31, 39, 31, Refusal::KeyOrNonceSize),
            (33, 41, 31, Refusal::KeyOrNonceSize),
            (32, 39, 31, Refusal::Length),
            (32, 41, 31, Refusal::Length),
            (32, 40, 31, Refusal::Room),
            (32, 40, 32, Refusal::CheckValue),
        ] {
            let mut out = vec![7; room];
            let unwrapped = unwrap_key(&vec![1; kek], &vec![2; wrapped], &mut out);
            assert_eq!((unwrapped, out), (Err(refusal), vec![7; room]));
        }
        for (kek, key, room, refusal) in [
            (31, 32, 39, Refusal::KeyOrNonceSize),
            (32, 33, 39, Refusal::KeyOrNonceSize),
            (32, 32, 39, Refusal::Room),
        ] {
            let mut out = vec![7; room];
            let wrapped = wrap_key(&vec![1; kek], &vec![2; key], &mut out);
            assert_eq!((wrapped, out), (Err(refusal), vec![7; room]));
        }
    }
}
