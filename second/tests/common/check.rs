//! Calls of the static library, compared with what they must do according to
//! `second`.
//!
//! Each function fails the test if the status or any byte differs, and gives
//! whether the call was done.

use super::primitives::{self, DONE, REFUSED};
use second::aes::Aes256;
use second::{base32, base64url, cmac, ctr, gcm, hmac, sha1, sha256, siv, utf8};
use std::slice;

/// The longest cleartext that the static library seals and opens by SIV.
pub const MAX_SIV_CLEARTEXT: usize = 1024;

/// The bytes that the static library takes to base 32.
pub const BASE32_DATA_LEN: usize = 20;

/// Bytes before and after `out` that no call may change. The number is odd,
/// so that `out` is at an odd address.
const GUARD: [u8; 17] = *b"outside of buffer";

pub fn aes256(key: &[u8], block: &[u8], out: &[u8]) -> bool {
    let answer = sized(key, block).map(|(key, block)| Aes256::new(key).encrypt(block).to_vec());
    let call = |out: &mut _| primitives::aes256(key, block, out);
    compare("aes256", &[key, block], answer, out, call)
}

pub fn aes256_decrypt(key: &[u8], block: &[u8], out: &[u8]) -> bool {
    let answer = sized(key, block).map(|(key, block)| Aes256::new(key).decrypt(block).to_vec());
    let call = |out: &mut _| primitives::aes256_decrypt(key, block, out);
    compare("aes256_decrypt", &[key, block], answer, out, call)
}

pub fn gcm_seal(key: &[u8], nonce: &[u8], aad: &[u8], cleartext: &[u8], out: &[u8]) -> bool {
    let answer = sized(key, nonce).map(|(key, nonce)| gcm::seal(key, nonce, aad, cleartext));
    let call = |out: &mut _| primitives::gcm_seal(key, nonce, aad, cleartext, out);
    compare("gcm_seal", &[key, nonce, aad, cleartext], answer, out, call)
}

pub fn gcm_open(key: &[u8], nonce: &[u8], aad: &[u8], sealed: &[u8], out: &[u8]) -> bool {
    let answer = sized(key, nonce).and_then(|(key, nonce)| gcm::open(key, nonce, aad, sealed));
    let call = |out: &mut _| primitives::gcm_open(key, nonce, aad, sealed, out);
    compare("gcm_open", &[key, nonce, aad, sealed], answer, out, call)
}

pub fn cmac256(key: &[u8], message: &[u8], out: &[u8]) -> bool {
    let answer = key.try_into().ok();
    let answer = answer.map(|key| cmac::mac(key, message).to_vec());
    let call = |out: &mut _| primitives::cmac256(key, message, out);
    compare("cmac256", &[key, message], answer, out, call)
}

pub fn siv_seal(
    mac_key: &[u8],
    enc_key: &[u8],
    ad_given: u32,
    ad: &[u8],
    cleartext: &[u8],
    out: &[u8],
) -> bool {
    let fits = cleartext.len() <= MAX_SIV_CLEARTEXT;
    let keys = sized(mac_key, enc_key).filter(|_| fits);
    let strings = strings(ad_given, &ad);
    let answer = keys.map(|(mac_key, enc_key)| siv::seal(mac_key, enc_key, strings, cleartext));
    let call = |out: &mut _| primitives::siv_seal(mac_key, enc_key, ad_given, ad, cleartext, out);
    let inputs = [mac_key, enc_key, ad, cleartext];
    compare("siv_seal", &inputs, answer, out, call)
}

pub fn siv_open(
    mac_key: &[u8],
    enc_key: &[u8],
    ad_given: u32,
    ad: &[u8],
    sealed: &[u8],
    out: &[u8],
) -> bool {
    let fits = sealed.len() <= siv::IV_LEN + MAX_SIV_CLEARTEXT;
    let keys = sized(mac_key, enc_key).filter(|_| fits);
    let strings = strings(ad_given, &ad);
    let answer = keys.and_then(|(mac_key, enc_key)| siv::open(mac_key, enc_key, strings, sealed));
    let call = |out: &mut _| primitives::siv_open(mac_key, enc_key, ad_given, ad, sealed, out);
    let inputs = [mac_key, enc_key, ad, sealed];
    compare("siv_open", &inputs, answer, out, call)
}

pub fn ctr128(key: &[u8], first_counter: &[u8], text: &[u8], out: &[u8]) -> bool {
    let answer = sized(key, first_counter).map(|(key, first_counter)| {
        let mut data = text.to_vec();
        let counter = u128::from_be_bytes(*first_counter);
        ctr::apply(&Aes256::new(key), counter, &mut data);
        data
    });
    let call = |out: &mut _| primitives::ctr128(key, first_counter, text, out);
    compare("ctr128", &[key, first_counter, text], answer, out, call)
}

pub fn sha1(message: &[u8], out: &[u8]) -> bool {
    let answer = sha1::digest(message).to_vec();
    let call = |out: &mut _| primitives::sha1(message, out);
    compare("sha1", &[message], Some(answer), out, call)
}

pub fn sha256(message: &[u8], out: &[u8]) -> bool {
    let answer = sha256::digest(message).to_vec();
    let call = |out: &mut _| primitives::sha256(message, out);
    compare("sha256", &[message], Some(answer), out, call)
}

pub fn hmac_sha256(key: &[u8], message: &[u8], out: &[u8]) -> bool {
    let answer = hmac::mac(key, message).to_vec();
    let call = |out: &mut _| primitives::hmac_sha256(key, message, out);
    compare("hmac_sha256", &[key, message], Some(answer), out, call)
}

pub fn base32(data: &[u8], out: &[u8]) -> bool {
    let fits = data.len() == BASE32_DATA_LEN;
    let answer = fits.then(|| base32::encode(data).into_bytes());
    let call = |out: &mut _| primitives::base32(data, out);
    compare("base32", &[data], answer, out, call)
}

pub fn base64url_encode(data: &[u8], padded: u32, out: &[u8]) -> bool {
    let answer = base64url::encode(data, padded != 0).into_bytes();
    let call = |out: &mut _| primitives::base64url_encode(data, padded, out);
    compare("base64url_encode", &[data], Some(answer), out, call)
}

pub fn base64url_decode(text: &[u8], padded: u32, out: &[u8], length: u64) -> bool {
    let place = base64url::decode(text, padded != 0)
        .is_none()
        .then(|| base64url::place(text, padded != 0) as u64);
    let (done, at) = base64url_decode_at(text, padded, out, length);
    assert_eq!(at, place, "wrong place");
    done
}

/// Compares all but the place, which is given where one was written.
pub fn base64url_decode_at(
    text: &[u8],
    padded: u32,
    out: &[u8],
    length: u64,
) -> (bool, Option<u64>) {
    let answer = base64url::decode(text, padded != 0);
    let decoded = answer.as_ref().map_or(0, Vec::len) as u64;
    let mut lengths = [!length, length, !length];
    let mut places = [length, !length, length];
    let call = |out: &mut _| {
        primitives::base64url_decode(text, padded, out, &mut lengths[1], &mut places[1])
    };
    let done = compare("base64url_decode", &[text], answer, out, call);
    let later = if done { decoded } else { length };
    assert_eq!(lengths, [!length, later, !length], "wrong length");
    assert_eq!(
        [places[0], places[2]],
        [length; 2],
        "a place beside the place"
    );
    (done, (places[1] != !length).then_some(places[1]))
}

/// Two inputs by their sizes.
fn sized<'a, const M: usize, const N: usize>(
    one: &'a [u8],
    other: &'a [u8],
) -> Option<(&'a [u8; M], &'a [u8; N])> {
    Some((one.try_into().ok()?, other.try_into().ok()?))
}

/// The list of associated data, of one string or none.
fn strings<'a>(ad_given: u32, ad: &'a &'a [u8]) -> &'a [&'a [u8]] {
    match ad_given {
        0 => &[],
        _ => slice::from_ref(ad),
    }
}

/// Makes the call on a copy of `out` between two guards. The answer must go to
/// its start, if there is one and it fits.
fn compare(
    name: &str,
    inputs: &[&[u8]],
    answer: Option<Vec<u8>>,
    out: &[u8],
    call: impl FnOnce(&mut [u8]) -> u32,
) -> bool {
    let mut predicted = [&GUARD, out, &GUARD].concat();
    let mut actual = predicted.clone();
    let range = GUARD.len()..GUARD.len() + out.len();
    let answer = answer.filter(|answer| answer.len() <= out.len());
    if let Some(answer) = &answer {
        predicted[GUARD.len()..][..answer.len()].copy_from_slice(answer);
    }
    let right = if answer.is_some() { DONE } else { REFUSED };
    let status = call(&mut actual[range]);
    if status != right || predicted != actual {
        let lengths: Vec<_> = inputs.iter().map(|input| input.len()).collect();
        let wrong = predicted.iter().zip(&actual).position(|(a, b)| a != b);
        panic!(
            "{name} with inputs of {lengths:?} bytes and an out of {}: status {status} and \
             not {right}, first wrong byte {:?}",
            out.len(),
            wrong.map(|place| place as isize - GUARD.len() as isize),
        );
    }
    answer.is_some()
}

/// Gives whether the text is proper.
pub fn proper_text(text: &[u8]) -> bool {
    let proper = utf8::is_proper(text);
    let status = primitives::proper_text(text);
    assert_eq!(status, if proper { DONE } else { REFUSED }, "{text:x?}");
    proper
}
