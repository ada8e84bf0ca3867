//! Wrapped master keys.

use crate::call::{done, safely};
use crate::Refusal;

/// The bytes in a key: a master key, a content key or a key-encryption key.
pub const KEY_LEN: usize = 32;

/// The bytes in a wrapped key.
pub const WRAPPED_KEY_LEN: usize = 40;

/// Wraps a key under a key-encryption key by RFC 3394: writes the wrapped key,
/// 40 bytes, and gives their number. Refused with rows 1 and 7.
pub fn wrap_key(kek: &[u8], key: &[u8], out: &mut [u8]) -> Result<usize, Refusal> {
    let mut length = 0;
    let status = safely!(skrapnefja_wrap_key: in kek, in key, out out, set length,);
    done(status, length, 0)
}

/// Unwraps a wrapped key under its key-encryption key: writes the key, 32
/// bytes, once the check value is found right, and gives their number. Refused
/// with rows 1, 4, 7 and 20.
///
/// `masterkey.cryptomator` has a vault's master keys as `primaryMasterKey`
/// (`enc`) and `hmacMasterKey` (`mac`), both in base64. The key-encryption key
/// is scrypt of the password (RFC 7914: salt `scryptSalt`, N `scryptCostParam`,
/// r `scryptBlockSize`, p 1, 32 bytes), which this crate does not have. Both
/// keys then open the vault's label ([`Label::open`](crate::Label::open)).
///
/// ```
/// use skrapnefja::{unwrap_key, wrap_key, Refusal};
///
/// fn master_keys(
///     kek: &[u8; 32],
///     primary_master_key: &[u8],
///     hmac_master_key: &[u8],
/// ) -> Result<([u8; 32], [u8; 32]), Refusal> {
///     let (mut enc, mut mac) = ([0; 32], [0; 32]);
///     unwrap_key(kek, primary_master_key, &mut enc)?;
///     unwrap_key(kek, hmac_master_key, &mut mac)?;
///     Ok((enc, mac))
/// }
///
/// let (mut primary, mut hmac) = ([0; 40], [0; 40]);
/// wrap_key(&[7; 32], &[1; 32], &mut primary)?;
/// wrap_key(&[7; 32], &[2; 32], &mut hmac)?;
/// assert_eq!(master_keys(&[7; 32], &primary, &hmac), Ok(([1; 32], [2; 32])));
/// assert_eq!(master_keys(&[8; 32], &primary, &hmac), Err(Refusal::CheckValue));
/// # Ok::<(), Refusal>(())
/// ```
pub fn unwrap_key(kek: &[u8], wrapped_key: &[u8], out: &mut [u8]) -> Result<usize, Refusal> {
    let mut length = 0;
    let status = safely!(skrapnefja_unwrap_key: in kek, in wrapped_key, out out, set length,);
    done(status, length, 0)
}
