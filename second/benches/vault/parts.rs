//! Where the time goes: the two halves of GCM, and those of SIV_CTRMAC.

use crate::inputs::{CONTENT_KEY, MAC};
use crate::primitives;
use crate::random::Random;
use crate::time::both;
use second::aes::Aes256;
use second::{ctr, gcm, hmac};

const LEN: usize = 1 << 20;
const NONCE: [u8; 12] = [0x11; 12];
const FIRST_COUNTER: [u8; 16] = [0x11; 16];

pub fn run() {
    let data = Random::new(4).bytes(LEN);
    seal("GCM of 1 MiB", &[], &data);
    // Associated data is hashed but not encrypted.
    seal("of this the hash (GHASH)", &data, &[]);
    counter_mode(&data);
    message_code(&data);
}

/// The length of an answer that a building block wrote.
fn written(status: u32, length: usize) -> Result<usize, u32> {
    match status {
        primitives::DONE => Ok(length),
        status => Err(status),
    }
}

fn seal(name: &str, aad: &[u8], cleartext: &[u8]) {
    both(
        name,
        &mut [vec![0; cleartext.len() + 16]],
        |out| {
            let out = &mut out[0];
            let status = primitives::gcm_seal(&CONTENT_KEY, &NONCE, aad, cleartext, out);
            written(status, out.len())
        },
        |out| {
            out[0].copy_from_slice(&gcm::seal(&CONTENT_KEY, &NONCE, aad, cleartext));
            Ok::<_, u32>(out[0].len())
        },
    );
}

fn counter_mode(text: &[u8]) {
    both(
        "counter mode of 1 MiB",
        &mut [vec![0; text.len()]],
        |out| {
            let status = primitives::ctr128(&CONTENT_KEY, &FIRST_COUNTER, text, &mut out[0]);
            written(status, text.len())
        },
        |out| {
            out[0].copy_from_slice(text);
            let counter = u128::from_be_bytes(FIRST_COUNTER);
            ctr::apply(&Aes256::new(&CONTENT_KEY), counter, &mut out[0]);
            Ok::<_, u32>(text.len())
        },
    );
}

fn message_code(message: &[u8]) {
    both(
        "HMAC-SHA-256 of 1 MiB",
        &mut [vec![0; hmac::MAC_LEN]],
        |out| {
            let status = primitives::hmac_sha256(&MAC, message, &mut out[0]);
            written(status, hmac::MAC_LEN)
        },
        |out| {
            out[0].copy_from_slice(&hmac::mac(&MAC, message));
            Ok::<_, u32>(hmac::MAC_LEN)
        },
    );
}
