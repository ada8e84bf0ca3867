//! The published vectors, through `second` and through the static library.

mod common {
    pub mod fields;
    pub mod primitives;
}

use common::fields::{bytes, lines};
use common::primitives::{self, DONE, REFUSED};
use second::aes::{Aes128, Aes256};
use second::cmac::{self, Cmac};
use second::siv::{self, Siv};
use second::{base32, base64url, ctr, gcm, hmac, key_wrap, sha1, sha256, utf8};

/// What is in `out` before a call.
const OLD: u8 = 0xa5;

/// The lines of a file, each with `N` fields.
fn cases<const N: usize>(file: &str) -> Vec<[&str; N]> {
    let sized = |fields: Vec<_>| fields.try_into().expect("another number of fields");
    lines(file).map(sized).collect()
}

fn array<const N: usize>(field: &str) -> [u8; N] {
    bytes(field).try_into().expect("another length")
}

#[test]
fn aes256_block() {
    let cases = cases(include_str!("../vectors/aes256_block.txt"));
    assert_eq!(cases.len(), 35);
    for [key, plaintext, ciphertext] in cases {
        let (key, plaintext) = (array(key), array(plaintext));
        let ciphertext = array(ciphertext);
        assert_eq!(Aes256::new(&key).encrypt(&plaintext), ciphertext);
        assert_eq!(Aes256::new(&key).decrypt(&ciphertext), plaintext);

        let mut out = [OLD; 16];
        assert_eq!(primitives::aes256(&key, &plaintext, &mut out), DONE);
        assert_eq!(out, ciphertext);

        let mut out = [OLD; 16];
        let status = primitives::aes256_decrypt(&key, &ciphertext, &mut out);
        assert_eq!(status, DONE);
        assert_eq!(out, plaintext);
    }
}

/// Through the static library these run beside the calls of the vault.
#[test]
fn keywrap256() {
    let cases = cases(include_str!("../vectors/keywrap256.txt"));
    let mut kinds = vec![];
    for [operation, kek, wrapped, verdict, key] in cases {
        let (cipher, wrapped) = (Aes256::new(&array(kek)), bytes(wrapped));
        match (operation, verdict) {
            ("wrap" | "unwrap", "ok") => {
                assert_eq!(key_wrap::wrap(&cipher, &bytes(key)), wrapped);
                assert_eq!(key_wrap::unwrap(&cipher, &wrapped), Some(bytes(key)));
            }
            ("unwrap", "FAIL") => assert_eq!(key_wrap::unwrap(&cipher, &wrapped), None),
            _ => panic!("unknown kind {operation} {verdict}"),
        }
        kinds.push((operation, verdict));
    }
    let count = |kind| kinds.iter().filter(|&&other| other == kind).count();
    let counts = [("wrap", "ok"), ("unwrap", "ok"), ("unwrap", "FAIL")].map(count);
    assert_eq!(counts, [30, 22, 8]);
}

#[test]
fn gcm256_seal() {
    let cases = cases(include_str!("../vectors/gcm256_seal.txt"));
    assert_eq!(cases.len(), 80);
    for [key, nonce, aad, plaintext, ciphertext, tag] in cases {
        let (key, nonce) = (array(key), array(nonce));
        let (aad, plaintext) = (bytes(aad), bytes(plaintext));
        let sealed = [bytes(ciphertext), bytes(tag)].concat();
        assert_eq!(gcm::seal(&key, &nonce, &aad, &plaintext), sealed);

        let mut out = vec![OLD; sealed.len()];
        let status = primitives::gcm_seal(&key, &nonce, &aad, &plaintext, &mut out);
        assert_eq!(status, DONE);
        assert_eq!(out, sealed);
    }
}

#[test]
fn gcm256_open() {
    let cases = cases(include_str!("../vectors/gcm256_open.txt"));
    assert_eq!(cases.len(), 80);
    let mut genuine = 0;
    for [key, nonce, aad, ciphertext, tag, verdict, plaintext] in cases {
        let (key, nonce, aad) = (array(key), array(nonce), bytes(aad));
        let sealed = [bytes(ciphertext), bytes(tag)].concat();
        let mut out = vec![OLD; bytes(ciphertext).len()];
        let (status, answer, later) = match verdict {
            "ok" => (DONE, Some(bytes(plaintext)), bytes(plaintext)),
            "FAIL" => (REFUSED, None, out.clone()),
            _ => panic!("unknown verdict {verdict}"),
        };
        assert_eq!(gcm::open(&key, &nonce, &aad, &sealed), answer);

        let given = primitives::gcm_open(&key, &nonce, &aad, &sealed, &mut out);
        assert_eq!(given, status);
        assert_eq!(out, later);
        genuine += usize::from(verdict == "ok");
    }
    assert_eq!(genuine, 42);
}

/// Only `second` has CMAC with AES-128.
#[test]
fn cmac128() {
    let cases = cases(include_str!("../vectors/cmac128.txt"));
    assert_eq!(cases.len(), 4);
    for [key, message, mac] in cases {
        let cmac = Cmac::new(Aes128::new(&array(key)));
        assert_eq!(cmac.mac(&bytes(message)), array(mac));
    }
}

#[test]
fn cmac256() {
    let cases = cases(include_str!("../vectors/cmac256.txt"));
    assert_eq!(cases.len(), 4);
    for [key, message, mac] in cases {
        let (key, message, mac) = (array(key), bytes(message), array(mac));
        assert_eq!(cmac::mac(&key, &message), mac);

        let mut out = [OLD; 16];
        assert_eq!(primitives::cmac256(&key, &message, &mut out), DONE);
        assert_eq!(out, mac);
    }
}

/// One vector of `siv.txt`, with the two halves of the key.
struct SivCase {
    cipher: &'static str,
    keys: [Vec<u8>; 2],
    plaintext: Vec<u8>,
    sealed: Vec<u8>,
    ad: Vec<Vec<u8>>,
}

fn siv_cases(cipher: &str) -> Vec<SivCase> {
    let lines = lines(include_str!("../vectors/siv.txt"));
    let cases = lines.map(|fields| {
        let [cipher, key, iv, plaintext, ciphertext, ad @ ..] = &fields[..] else {
            panic!("too few fields");
        };
        let (mac_key, ctr_key) = key.split_at(key.len() / 2);
        SivCase {
            cipher,
            keys: [bytes(mac_key), bytes(ctr_key)],
            plaintext: bytes(plaintext),
            sealed: [bytes(iv), bytes(ciphertext)].concat(),
            ad: ad.iter().map(|string| bytes(string)).collect(),
        }
    });
    cases.filter(|case| case.cipher == cipher).collect()
}

/// Only `second` has SIV with AES-128 and with lists of associated data.
#[test]
fn siv128() {
    let cases = siv_cases("aes-128-siv");
    let ad_counts: Vec<_> = cases.iter().map(|case| case.ad.len()).collect();
    assert_eq!(ad_counts, [1, 3]);
    for case in cases {
        let [mac, ctr] = case.keys.map(|key| key.try_into().expect("another length"));
        let siv = Siv::new(Aes128::new(&mac), Aes128::new(&ctr));
        let ad: Vec<_> = case.ad.iter().map(Vec::as_slice).collect();
        assert_eq!(siv.seal(&ad, &case.plaintext), case.sealed);
        assert_eq!(siv.open(&ad, &case.sealed), Some(case.plaintext));
    }
}

#[test]
fn siv256() {
    let cases = siv_cases("aes-256-siv");
    assert_eq!(cases.len(), 1);
    for case in cases {
        let [mac, enc] = case.keys.map(|key| key.try_into().expect("another length"));
        let (plaintext, sealed) = (case.plaintext, case.sealed);
        let [ad] = &case.ad[..] else {
            panic!("another number of strings");
        };
        assert_eq!(siv::seal(&mac, &enc, &[ad], &plaintext), sealed);
        assert_eq!(
            siv::open(&mac, &enc, &[ad], &sealed),
            Some(plaintext.clone())
        );

        let mut out = vec![OLD; sealed.len()];
        let status = primitives::siv_seal(&mac, &enc, 1, ad, &plaintext, &mut out);
        assert_eq!(status, DONE);
        assert_eq!(out, sealed);

        let mut out = vec![OLD; plaintext.len()];
        let status = primitives::siv_open(&mac, &enc, 1, ad, &sealed, &mut out);
        assert_eq!(status, DONE);
        assert_eq!(out, plaintext);
    }
}

#[test]
fn ctr256() {
    let cases = cases(include_str!("../vectors/ctr256.txt"));
    assert_eq!(cases.len(), 1);
    for [key, counter, plaintext, ciphertext] in cases {
        let (key, counter) = (array(key), array(counter));
        let (plaintext, ciphertext) = (bytes(plaintext), bytes(ciphertext));
        for (text, answer) in [(&plaintext, &ciphertext), (&ciphertext, &plaintext)] {
            let mut data = text.clone();
            ctr::apply(&Aes256::new(&key), u128::from_be_bytes(counter), &mut data);
            assert_eq!(data, *answer);

            let mut out = vec![OLD; text.len()];
            assert_eq!(primitives::ctr128(&key, &counter, text, &mut out), DONE);
            assert_eq!(out, *answer);
        }
    }
}

fn check_sha1(message: &[u8], digest: [u8; 20]) {
    assert_eq!(sha1::digest(message), digest);
    let mut out = [OLD; 20];
    assert_eq!(primitives::sha1(message, &mut out), DONE);
    assert_eq!(out, digest);
}

#[test]
fn sha1_messages() {
    let cases = cases(include_str!("../vectors/sha1.txt"));
    assert_eq!(cases.len(), 45);
    for [message, digest] in cases {
        check_sha1(&bytes(message), array(digest));
    }
}

/// A million times "a".
#[test]
fn sha1_long() {
    let digest = array("34aa973cd4c4daa4f61eeb2bdbad27316534016f");
    check_sha1(&[b'a'; 1_000_000], digest);
}

fn check_sha256(message: &[u8], digest: [u8; 32]) {
    assert_eq!(sha256::digest(message), digest);
    let mut out = [OLD; 32];
    assert_eq!(primitives::sha256(message, &mut out), DONE);
    assert_eq!(out, digest);
}

#[test]
fn sha256_messages() {
    let cases = cases(include_str!("../vectors/sha256.txt"));
    assert_eq!(cases.len(), 3);
    for [message, digest] in cases {
        check_sha256(&bytes(message), array(digest));
    }
}

/// A million times "a".
#[test]
fn sha256_long() {
    let digest = array("cdc76e5c9914fb9281a1c7e284d73e67f1809a48a497200e046d39ccc7112cd0");
    check_sha256(&[b'a'; 1_000_000], digest);
}

fn check_hmac_sha256(key: &[u8], message: &[u8], mac: [u8; 32]) {
    assert_eq!(hmac::mac(key, message), mac);
    let mut out = [OLD; 32];
    assert_eq!(primitives::hmac_sha256(key, message, &mut out), DONE);
    assert_eq!(out, mac);
}

#[test]
fn hmac_sha256() {
    let cases = cases(include_str!("../vectors/hmac_sha256.txt"));
    assert_eq!(cases.len(), 6);
    for [key, message, mac] in cases {
        check_hmac_sha256(&bytes(key), &bytes(message), array(mac));
    }
}

/// The other lines of this file run through the calls of the vault.
#[test]
fn distinct_inputs() {
    let (enc, mac) = (0x00..0x20, 0x20..0x40);
    let mac_key: Vec<_> = mac.clone().collect();
    let both_keys: Vec<_> = enc.chain(mac).collect();
    let message = b"hello world";
    let mut kinds = vec![];
    for fields in lines(include_str!("../vectors/distinct.txt")) {
        match fields[..] {
            ["hmac_32", value] => check_hmac_sha256(&mac_key, message, array(value)),
            ["hmac_64", value] => check_hmac_sha256(&both_keys, message, array(value)),
            ["sha256", value] => check_sha256(message, array(value)),
            _ => continue,
        }
        kinds.push(fields[0]);
    }
    assert_eq!(kinds, ["hmac_32", "hmac_64", "sha256"]);
}

/// The whole group of RFC 4648, section 10, as often as 20 bytes take.
#[test]
fn base32_groups() {
    let (data, text) = ("fooba".repeat(4), "MZXW6YTB".repeat(4));
    assert_eq!(base32::encode(data.as_bytes()), text);
    let mut out = [OLD; 32];
    assert_eq!(primitives::base32(data.as_bytes(), &mut out), DONE);
    assert_eq!(out, text.as_bytes());
}

/// RFC 4648, section 10, also without the padding.
#[test]
fn base64url_groups() {
    for (data, text) in [
        ("", ""),
        ("f", "Zg=="),
        ("fo", "Zm8="),
        ("foo", "Zm9v"),
        ("foob", "Zm9vYg=="),
        ("fooba", "Zm9vYmE="),
        ("foobar", "Zm9vYmFy"),
    ] {
        check_base64url(data.as_bytes(), text, true);
        check_base64url(data.as_bytes(), text.trim_end_matches('='), false);
    }
}

fn check_base64url(data: &[u8], text: &str, padded: bool) {
    assert_eq!(base64url::encode(data, padded), text);
    assert_eq!(
        base64url::decode(text.as_bytes(), padded),
        Some(data.to_vec())
    );

    let mut out = vec![OLD; text.len()];
    let flag = u32::from(padded);
    assert_eq!(primitives::base64url_encode(data, flag, &mut out), DONE);
    assert_eq!(out, text.as_bytes());

    let mut out = vec![OLD; data.len()];
    let mut length = u64::MAX;
    let mut at = 0;
    let status =
        primitives::base64url_decode(text.as_bytes(), flag, &mut out, &mut length, &mut at);
    assert_eq!(status, DONE);
    assert_eq!(out, data);
    assert_eq!(length, data.len() as u64);
}

/// RFC 3629: the texts of section 7, and what sections 3 and 10 warn of.
#[test]
fn utf8_texts() {
    for text in [
        &b"\x41\xe2\x89\xa2\xce\x91\x2e"[..],
        b"\xed\x95\x9c\xea\xb5\xad\xec\x96\xb4",
        b"\xe6\x97\xa5\xe6\x9c\xac\xe8\xaa\x9e",
        b"\xef\xbb\xbf\xf0\xa3\x8e\xb4",
    ] {
        check_proper_text(text, true);
    }
    for text in [
        &b"\xc0\x80"[..],
        b"\xed\xa1\x8c\xed\xbe\xb4",
        b"\x2f\xc0\xae\x2e\x2f",
    ] {
        check_proper_text(text, false);
    }
}

fn check_proper_text(text: &[u8], proper: bool) {
    assert_eq!(utf8::is_proper(text), proper);
    assert_eq!(primitives::proper_text(text) == DONE, proper);
}
