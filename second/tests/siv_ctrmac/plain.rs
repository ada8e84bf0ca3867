//! The format by the words of its document, with whole strings joined and the
//! counter mode block by block.

use crate::inputs::Inputs;
use crate::NONCE;
use second::aes::{Aes256, BLOCK_LEN};
use second::hmac;
use second::vault::CHUNK_LEN;

pub fn file(inputs: &Inputs) -> Vec<u8> {
    let chunks = (0..inputs.nonces.len()).flat_map(|number| chunk(inputs, number));
    header(inputs).into_iter().chain(chunks).collect()
}

fn header(inputs: &Inputs) -> Vec<u8> {
    let payload = [&[0xff; 8][..], &inputs.content_key].concat();
    let nonce = &inputs.header_nonce;
    let sealed = [&nonce[..], &aes_ctr(&payload, &inputs.enc, nonce)].concat();
    let mac = hmac::mac(&inputs.mac, &sealed);
    [&sealed[..], &mac].concat()
}

/// The chunk of a file that has this number.
fn chunk(inputs: &Inputs, number: usize) -> Vec<u8> {
    let nonce = &inputs.nonces[number];
    let cleartext = inputs.cleartext.chunks(CHUNK_LEN).nth(number);
    let ciphertext = aes_ctr(cleartext.expect("a chunk"), &inputs.content_key, nonce);
    let sealed = [&nonce[..], &ciphertext].concat();
    let number = (number as u64).to_be_bytes();
    let mac = hmac::mac(
        &inputs.mac,
        &[&inputs.header_nonce[..], &number, &sealed].concat(),
    );
    [&sealed[..], &mac].concat()
}

/// The counter starts at the nonce, and wraps modulo 2^128.
fn aes_ctr(data: &[u8], key: &[u8; 32], nonce: &[u8; NONCE]) -> Vec<u8> {
    let cipher = Aes256::new(key);
    let mut counter = *nonce;
    let mut result = vec![];
    for block in data.chunks(BLOCK_LEN) {
        let stream = cipher.encrypt(&counter);
        result.extend(block.iter().zip(stream).map(|(byte, key)| byte ^ key));
        increment(&mut counter);
    }
    result
}

/// Byte by byte, from the last one.
fn increment(counter: &mut [u8; NONCE]) {
    for byte in counter.iter_mut().rev() {
        *byte = byte.wrapping_add(1);
        if *byte != 0 {
            return;
        }
    }
}
