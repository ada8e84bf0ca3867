//! Values of the stock program's own tests.

use crate::common::fields::{bytes, lines};
use crate::compare::Compare;
use crate::known;
use crate::make::vault_of;
use crate::part::{Part, Run::Once};
use second::base64url;
use second::vault::Combo;

pub const PARTS: &[Part] = &[("values of the stock program", Once(values))];

/// A master key that the value does not go by.
const ANY_KEY: [u8; 32] = [5; 32];

fn values(compare: &mut Compare) {
    let mut kinds = vec![];
    for fields in lines(include_str!("../../vectors/stock_program.txt")) {
        match fields[..] {
            ["header", enc, nonce, content_key, header] => {
                let vault = vault_of(&bytes(enc), &ANY_KEY, Combo::SivGcm);
                let inputs = [vault, bytes(nonce), bytes(content_key)];
                known::header(compare, inputs, base64(header));
            }
            ["chunk", ref inputs @ .., stored] => {
                let vault = vault_of(&ANY_KEY, &ANY_KEY, Combo::SivGcm);
                chunk(compare, vault, inputs, stored);
            }
            ["ctrmac_chunk", mac, ref inputs @ .., stored] => {
                let vault = vault_of(&ANY_KEY, &bytes(mac), Combo::SivCtrmac);
                chunk(compare, vault, inputs, stored);
            }
            ["path", enc, mac, id, path] => {
                for combo in Combo::ALL {
                    let vault = vault_of(&bytes(enc), &bytes(mac), combo);
                    known::path(compare, [vault, bytes(id)], path);
                }
            }
            ["masterkey", kek, wrapped, key] => {
                known::wrapped_key(compare, [kek, key].map(bytes), base64(wrapped));
            }
            _ => panic!("not a value: {fields:?}"),
        }
        kinds.push(fields[0]);
    }
    assert_eq!(
        kinds,
        ["header", "chunk", "path", "ctrmac_chunk", "masterkey"]
    );
}

fn chunk(compare: &mut Compare, vault: Vec<u8>, inputs: &[&str], stored: &str) {
    let &[content_key, header_nonce, number, nonce, cleartext] = inputs else {
        panic!("not what a chunk is made of: {inputs:?}");
    };
    let [content_key, header_nonce, nonce, cleartext] =
        [content_key, header_nonce, nonce, cleartext].map(bytes);
    let number = number.parse().expect("a number");
    let inputs = [vault, content_key, header_nonce, nonce, cleartext];
    known::chunk(compare, inputs, number, base64(stored));
}

/// Base 64 with the alphabet that is not safe for URLs.
fn base64(field: &str) -> Vec<u8> {
    let text = field.replace('+', "-").replace('/', "_");
    base64url::decode(text.as_bytes(), true).expect("not base 64")
}
