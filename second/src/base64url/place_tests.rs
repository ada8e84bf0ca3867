//! Places, worked out by hand and by trying more continuations.

use super::*;
use crate::places::exhaustive::{texts, Starts};

#[test]
fn padded() {
    for (text, at) in [
        ("A", 1),
        ("AA", 2),
        ("AAA", 3),
        ("AAAAA", 5),
        ("AB", 2),
        ("AAB", 3),
        ("AA=", 3),
        ("AQ=", 3),
        ("AAAAAA=", 7),
        ("=", 0),
        ("====", 0),
        ("A=", 1),
        ("A===", 1),
        ("A=AA", 1),
        ("AB=", 2),
        ("AB==", 2),
        ("AE==", 2),
        ("AAB=", 3),
        ("AA=A", 3),
        ("AA=\n", 3),
        ("AA==A", 4),
        ("AA==AAAA", 4),
        ("AA===", 4),
        ("AAA==", 4),
        ("AAA=A", 4),
        ("AAA=\n", 4),
        ("AAAA=", 4),
        ("AAAA====", 4),
        ("+AAA", 0),
        ("AA+=", 2),
        ("AA/A", 2),
        ("AAAA.AAA", 4),
        ("AAAA\u{80}", 4),
    ] {
        assert_eq!(decode(text.as_bytes(), true), None, "{text}");
        assert_eq!(place(text.as_bytes(), true), at, "{text}");
    }
}

#[test]
fn unpadded() {
    for (text, at) in [
        ("A", 1),
        ("AAAAA", 5),
        ("AB", 2),
        ("AP", 2),
        ("AAB", 3),
        ("AAD", 3),
        ("AAAAAB", 6),
        ("=", 0),
        ("A=", 1),
        ("AA=", 2),
        ("AB=", 2),
        ("AA==", 2),
        ("AAA=", 3),
        ("AAAA=", 4),
        ("+", 0),
        ("A+", 1),
        ("A/AA", 1),
        ("AA ", 2),
        ("AA\n", 2),
        ("AAA.", 3),
        ("\0AAA", 0),
        ("é", 0),
        ("AAAé", 3),
    ] {
        assert_eq!(decode(text.as_bytes(), false), None, "{text}");
        assert_eq!(place(text.as_bytes(), false), at, "{text}");
    }
}

/// The characters stand for six zero bits, and for others of which the last four,
/// the last two or none are zero. Five of them, with `=` and one that is never
/// right, against all right texts of up to eight.
#[test]
fn among_all_starts() {
    for padded in [true, false] {
        let is_taken = |text: &[u8]| decode(text, padded).is_some();
        let starts = Starts::new(0, texts(b"", b"AQEB=", 8), is_taken);
        for text in texts(b"", b"AQEB=+", 5) {
            if !is_taken(&text) {
                assert_eq!(place(&text, padded), starts.place(&text), "{text:?}");
            }
        }
    }
}
