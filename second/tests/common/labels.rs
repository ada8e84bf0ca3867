//! Labels, signed.

use second::{base64url, hmac};

/// A usual header and a usual payload.
pub const HEADER: &str =
    r#"{"kid":"masterkeyfile:masterkey.cryptomator","typ":"JWT","alg":"HS256"}"#;
pub const PAYLOAD: &str = r#"{"jti":"0f8fad5b-d9cb-469f-a165-70867728950e","format":8,"cipherCombo":"SIV_GCM","shorteningThreshold":220}"#;

/// What the longest label has beside this header, its dots and its signature:
/// a payload of 4,031 characters.
const SHORT_HEADER: &str = r#"{"alg":"HS256"}"#;
const LONG_PAYLOAD: usize = 3023;

/// The label of two texts, signed under the raw key.
pub fn label(raw_key: &[u8], texts: [&[u8]; 2]) -> Vec<u8> {
    let segments = texts.map(|text| base64url::encode(text, false));
    signed(raw_key, &segments.join("."))
}

/// What is signed, and its signature.
pub fn signed(raw_key: &[u8], signed: &str) -> Vec<u8> {
    let signature = hmac::mac(raw_key, signed.as_bytes());
    format!("{signed}.{}", base64url::encode(&signature, false)).into_bytes()
}

/// A label of 4,096 bytes. Its payload has as many pieces as there is room for
/// between its start and its end, and then white space.
pub fn filled(raw_key: &[u8], [start, piece, end]: [&str; 3]) -> Vec<u8> {
    let room = LONG_PAYLOAD - start.len() - end.len();
    let pieces = piece.repeat(room / piece.len());
    let spaces = " ".repeat(room % piece.len());
    let payload = [start, &pieces, end, &spaces].concat();
    let label = label(raw_key, [SHORT_HEADER.as_bytes(), payload.as_bytes()]);
    assert_eq!(label.len(), 4096);
    label
}
