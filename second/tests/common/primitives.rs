//! The functions of the static library, as safe functions.

#[link(name = "primitives", kind = "static")]
extern "C" {}

/// The status of a call that wrote its answer, or of a test that says yes.
pub const DONE: u32 = 1;

/// The status of a call that left all as it was, or of a test that says no.
pub const REFUSED: u32 = 0;

/// Declares functions of the C boundary, and makes a safe one of each. A
/// parameter is an input slice, a buffer, a flag or a length that is set.
macro_rules! functions {
    ($($symbol:ident as $name:ident($($parameter:ident: $kind:ident),+);)+) => {
        $(functions!(@ $symbol $name () () () $($parameter $kind)+);)+
    };
    (@ $symbol:ident $name:ident ($($declared:tt)*) ($($taken:tt)*) ($($passed:tt)*)
        $x:ident input $($rest:tt)*) => {
        functions!(@ $symbol $name
            ($($declared)* _: *const u8, _: usize,)
            ($($taken)* $x: &[u8],)
            ($($passed)* $x.as_ptr(), $x.len(),)
            $($rest)*);
    };
    (@ $symbol:ident $name:ident ($($declared:tt)*) ($($taken:tt)*) ($($passed:tt)*)
        $x:ident buffer $($rest:tt)*) => {
        functions!(@ $symbol $name
            ($($declared)* _: *mut u8, _: usize,)
            ($($taken)* $x: &mut [u8],)
            ($($passed)* $x.as_mut_ptr(), $x.len(),)
            $($rest)*);
    };
    (@ $symbol:ident $name:ident ($($declared:tt)*) ($($taken:tt)*) ($($passed:tt)*)
        $x:ident flag $($rest:tt)*) => {
        functions!(@ $symbol $name
            ($($declared)* _: u32,) ($($taken)* $x: u32,) ($($passed)* $x,) $($rest)*);
    };
    (@ $symbol:ident $name:ident ($($declared:tt)*) ($($taken:tt)*) ($($passed:tt)*)
        $x:ident length $($rest:tt)*) => {
        functions!(@ $symbol $name
            ($($declared)* _: *mut u64,) ($($taken)* $x: &mut u64,) ($($passed)* $x,) $($rest)*);
    };
    (@ $symbol:ident $name:ident ($($declared:tt)*) ($($taken:tt)*) ($($passed:tt)*)) => {
        // Not every test calls every function.
        #[allow(dead_code)]
        pub fn $name($($taken)*) -> u32 {
            extern "C" {
                fn $symbol($($declared)*) -> u32;
            }
            // SAFETY: each pointer is that of one slice, with its length, or
            // of one number.
            unsafe { $symbol($($passed)*) }
        }
    };
}

functions! {
    primitives_aes256 as aes256(key: input, block: input, out: buffer);
    primitives_aes256_decrypt as aes256_decrypt(key: input, block: input, out: buffer);
    primitives_gcm_seal as gcm_seal(
        key: input, nonce: input, aad: input, cleartext: input, out: buffer);
    primitives_gcm_open as gcm_open(
        key: input, nonce: input, aad: input, sealed: input, out: buffer);
    primitives_cmac256 as cmac256(key: input, message: input, out: buffer);
    primitives_siv_seal as siv_seal(
        mac_key: input, enc_key: input, ad_given: flag, ad: input, cleartext: input, out: buffer);
    primitives_siv_open as siv_open(
        mac_key: input, enc_key: input, ad_given: flag, ad: input, sealed: input, out: buffer);
    primitives_ctr128 as ctr128(key: input, first_counter: input, text: input, out: buffer);
    primitives_ctr_in_place as ctr_in_place(
        key: input, first_counter: input, wide: flag, text: buffer);
    primitives_sha1 as sha1(message: input, out: buffer);
    primitives_sha256 as sha256(message: input, out: buffer);
    primitives_hmac_sha256 as hmac_sha256(key: input, message: input, out: buffer);
    primitives_base32 as base32(data: input, out: buffer);
    primitives_base64url_encode as base64url_encode(data: input, padded: flag, out: buffer);
    primitives_base64url_decode as base64url_decode(
        text: input, padded: flag, out: buffer, length: length, at: length);
    primitives_proper_text as proper_text(text: input);
}
