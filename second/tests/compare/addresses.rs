//! Inputs that start at every address modulo 16.

use crate::common::random::Random;
use crate::common::{check, gcm_message, siv_message};
use crate::{NO, YES};
use second::aes::{BLOCK_LEN, KEY_LEN};
use second::base64url;

/// A copy of the input some bytes after the start of a vector.
struct Moved {
    bytes: Vec<u8>,
    offset: usize,
}

impl Moved {
    fn new(offset: usize, input: &[u8]) -> Self {
        let bytes = [&[0; 16][..offset], input].concat();
        Moved { bytes, offset }
    }

    fn input(&self) -> &[u8] {
        &self.bytes[self.offset..]
    }
}

#[test]
fn aes_and_gcm() {
    let mut random = Random::new(11);
    for offset in 0..16 {
        let message = gcm_message::Message::random(&mut random, 30, 50);
        let moved = |input| Moved::new(offset, input);
        let (key, nonce) = (moved(&message.key), moved(&message.nonce));
        let (aad, cleartext) = (moved(&message.aad), moved(&message.cleartext));
        let sealed = moved(&message.sealed);
        let inputs = [&key, &nonce, &aad, &cleartext, &sealed].map(Moved::input);
        let [key, nonce, aad, cleartext, sealed] = inputs;
        let out = random.array::<66>();
        assert!(check::aes256(key, &cleartext[..BLOCK_LEN], &out));
        assert!(check::aes256_decrypt(key, &cleartext[..BLOCK_LEN], &out));
        assert!(check::gcm_seal(key, nonce, aad, cleartext, &out));
        assert!(check::gcm_open(key, nonce, aad, sealed, &out));
    }
}

#[test]
fn cmac_and_siv() {
    let mut random = Random::new(12);
    for offset in 0..16 {
        let message = siv_message::Message::random(&mut random, Some(30), 50);
        let moved = |input| Moved::new(offset, input);
        let (mac_key, enc_key) = (moved(&message.mac_key), moved(&message.enc_key));
        let (ad, cleartext) = (moved(&message.ad), moved(&message.cleartext));
        let sealed = moved(&message.sealed);
        let inputs = [&mac_key, &enc_key, &ad, &cleartext, &sealed].map(Moved::input);
        let [mac_key, enc_key, ad, cleartext, sealed] = inputs;
        let out = random.array::<66>();
        assert!(check::cmac256(mac_key, cleartext, &out));
        assert!(check::siv_seal(
            mac_key, enc_key, YES[0], ad, cleartext, &out
        ));
        assert!(check::siv_open(mac_key, enc_key, YES[0], ad, sealed, &out));
    }
}

#[test]
fn ctr_and_hmac() {
    let mut random = Random::new(14);
    for offset in 0..16 {
        let moved = |input: Vec<u8>| Moved::new(offset, &input);
        let [key, counter, text] = [KEY_LEN, BLOCK_LEN, 200].map(|len| moved(random.bytes(len)));
        let [key, counter, text] = [&key, &counter, &text].map(Moved::input);
        let out = random.array::<200>();
        assert!(check::ctr128(key, counter, text, &out));
        assert!(check::hmac_sha256(key, text, &out));
        assert!(check::hmac_sha256(text, text, &out));
    }
}

#[test]
fn hashes_and_text() {
    let mut random = Random::new(13);
    for offset in 0..16 {
        let data = random.bytes(200);
        let text = base64url::encode(&data, false);
        let (data, text) = (
            Moved::new(offset, &data),
            Moved::new(offset, text.as_bytes()),
        );
        let (data, text) = (data.input(), text.input());
        let out = random.array::<300>();
        assert!(check::sha1(data, &out));
        assert!(check::sha256(data, &out));
        assert!(check::base32(&data[..20], &out));
        assert!(check::base64url_encode(data, NO, &out));
        assert!(check::base64url_decode(text, NO, &out, 0));
    }
}
