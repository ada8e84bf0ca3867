//! HMAC (FIPS 198-1) with SHA-256, by the steps of its section 4.

use crate::sha256::{self, Sha256, BLOCK_LEN};

pub const MAC_LEN: usize = sha256::DIGEST_LEN;

/// What is added to each byte of the key for the hash of the message.
const INNER_PAD: u8 = 0x36;

/// What is added to each byte of the key for the hash of that digest.
const OUTER_PAD: u8 = 0x5c;

/// The MAC of a message that is there as a whole.
pub fn mac(key: &[u8], message: &[u8]) -> [u8; MAC_LEN] {
    let mut hmac = Hmac::new(key);
    hmac.update(message);
    hmac.finish()
}

/// The state after a part of a message. Copies of a new one are the key made
/// ready for many messages.
#[derive(Clone)]
pub struct Hmac {
    inner: Sha256,
    outer: Sha256,
}

impl Hmac {
    pub fn new(key: &[u8]) -> Self {
        let key = block(key);
        let mut hmac = Hmac {
            inner: Sha256::new(),
            outer: Sha256::new(),
        };
        hmac.inner.update(&key.map(|byte| byte ^ INNER_PAD));
        hmac.outer.update(&key.map(|byte| byte ^ OUTER_PAD));
        hmac
    }

    pub fn update(&mut self, data: &[u8]) {
        self.inner.update(data);
    }

    pub fn finish(mut self) -> [u8; MAC_LEN] {
        self.outer.update(&self.inner.finish());
        self.outer.finish()
    }
}

/// The key, or the digest of one that is longer than a block, filled up with
/// zeros.
fn block(key: &[u8]) -> [u8; BLOCK_LEN] {
    let mut block = [0; BLOCK_LEN];
    if key.len() > BLOCK_LEN {
        block[..sha256::DIGEST_LEN].copy_from_slice(&sha256::digest(key));
    } else {
        block[..key.len()].copy_from_slice(key);
    }
    block
}

#[cfg(test)]
mod tests {
    use super::*;
    use crate::hex;

    const KEY: [u8; 32] = [7; 32];

    /// RFC 4231, test cases 1, 2, 3 and 6. The key of the last is longer than
    /// a block.
    #[test]
    fn examples() {
        for (key, message, expected) in [
            (
                &[0x0b; 20][..],
                &b"Hi There"[..],
                "b0344c61d8db38535ca8afceaf0bf12b881dc200c9833da726e9376c2e32cff7",
            ),
            (
                b"Jefe",
                b"what do ya want for nothing?",
                "5bdcc146bf60754e6a042426089575c75a003f089d2739839dec58b964ec3843",
            ),
            (
                &[0xaa; 20],
                &[0xdd; 50],
                "773ea91e36800e46854db8ebd09181a72959098b3ef8c122d9635514ced565fe",
            ),
            (
                &[0xaa; 131],
                b"Test Using Larger Than Block-Size Key - Hash Key First",
                "60e431591ee0b67f0d8a26aacbf5b77f8e0bc6213728c5140546040f0ee37f54",
            ),
        ] {
            assert_eq!(hex::decode(expected), Some(mac(key, message).to_vec()));
        }
    }

    /// Only a key longer than a block is hashed.
    #[test]
    fn keys_around_a_block() {
        let key: [u8; BLOCK_LEN + 1] = std::array::from_fn(|i| i as u8);
        for len in 0..=BLOCK_LEN {
            let mut filled = key[..len].to_vec();
            filled.resize(BLOCK_LEN, 0);
            assert_eq!(block(&key[..len]), *filled);
        }
        assert_eq!(block(&key), block(&sha256::digest(&key)));
    }

    #[test]
    fn parts_are_one_message() {
        let message: [u8; 150] = std::array::from_fn(|i| i as u8);
        for first in 0..=message.len() {
            for second in first..=message.len() {
                let mut hmac = Hmac::new(&KEY);
                hmac.update(&message[..first]);
                hmac.update(&message[first..second]);
                hmac.update(&message[second..]);
                assert_eq!(hmac.finish(), mac(&KEY, &message));
            }
        }
    }

    #[test]
    fn copies_are_apart() {
        let ready = Hmac::new(&KEY);
        for message in [&b"one"[..], b"other", b""] {
            let mut hmac = ready.clone();
            hmac.update(message);
            assert_eq!(hmac.finish(), mac(&KEY, message));
        }
    }
}
