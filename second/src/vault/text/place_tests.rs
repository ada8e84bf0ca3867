//! Places, worked out by hand and by trying more continuations.

use super::*;
use crate::places::exhaustive::{texts, Starts};

/// The place in so many `A` and this behind them, or `None` in a full name.
fn at(digits: usize, behind: &str, limit: usize) -> Option<usize> {
    let text = "A".repeat(digits) + behind;
    sealed_name(text.as_bytes(), limit).err()
}

/// 16 bytes are too few.
#[test]
fn shortest() {
    for (digits, behind, place) in [
        (0, "", Some(0)),
        (0, ".c9r", Some(0)),
        (0, "=", Some(0)),
        (1, "", Some(1)),
        (20, ".c9r", Some(20)),
        (21, "==.c9r", Some(21)),
        (22, "==.c9r", Some(22)),
        (22, "=", Some(22)),
        (23, "", Some(23)),
        (23, ".c9r", Some(23)),
        (23, "=.c9r", None),
        (23, "==.c9r", Some(24)),
        (22, "B=.c9r", Some(23)),
        (22, "E=.c9r", None),
        (24, ".c9r", None),
    ] {
        for limit in [36, 220, MAX_FULL_LEN] {
            assert_eq!(at(digits, behind, limit), place, "{digits} {behind}");
        }
    }
}

#[test]
fn endings() {
    for (digits, behind, place) in [
        (24, "", Some(24)),
        (24, ".", Some(25)),
        (24, ".c9", Some(27)),
        (24, "c9r", Some(27)),
        (24, ".c9s", Some(27)),
        (24, ".C9R", Some(25)),
        (24, ".c9r ", Some(28)),
        (24, ".c9r.c9r", Some(28)),
        (24, "=.c9r", Some(24)),
        (25, ".c9r", Some(25)),
        (25, "==.c9r", Some(25)),
        (26, ".c9r", Some(26)),
        (26, "=.c9r", Some(27)),
        (26, "==", Some(28)),
        (26, "==.c9r", None),
        (26, "===", Some(28)),
        (25, "B==.c9r", Some(26)),
        (25, "E==.c9r", Some(26)),
        (25, "Q==.c9r", None),
        (27, ".c9r", Some(27)),
        (27, "=A", Some(28)),
        (26, "D=.c9r", Some(27)),
        (26, "+A.c9r", Some(26)),
        (26, "\0", Some(26)),
    ] {
        for limit in [36, 220, MAX_FULL_LEN] {
            assert_eq!(at(digits, behind, limit), place, "{digits} {behind}");
        }
    }
}

/// The last whole group that fits, and then the suffix.
#[test]
fn thresholds() {
    for (limit, most) in [
        (36, 32),
        (37, 32),
        (39, 32),
        (40, 36),
        (219, 212),
        (220, 216),
    ] {
        for (digits, behind, place) in [
            (most, ".c9r", None),
            (most - 1, "=.c9r", None),
            (most - 2, "==.c9r", None),
            (most - 2, "B=.c9r", Some(most - 1)),
            (most, "", Some(most)),
            (most, "A", Some(most)),
            (most, "=", Some(most)),
            (most + 1, ".c9r", Some(most)),
            (most + 4, ".c9r", Some(most)),
            (most + 400, ".c9r", Some(most)),
            (most, ".c9rA", Some(most + 4)),
        ] {
            assert_eq!(
                at(digits, behind, limit),
                place,
                "{limit}: {digits} {behind}"
            );
        }
    }
}

/// The last group of 1,036 bytes stands for one byte: its second character has
/// four spare bits, and two pads follow.
#[test]
fn longest() {
    assert_eq!(MAX_FULL_LEN, 1388);
    for (digits, behind, place) in [
        (1380, ".c9r", None),
        (1382, "==.c9r", None),
        (1381, "Q==.c9r", None),
        (1381, "B==.c9r", Some(1381)),
        (1381, "E==.c9r", Some(1381)),
        (1380, "BA==.c9r", None),
        (1382, "=.c9r", Some(1383)),
        (1382, ".c9r", Some(1382)),
        (1382, "A=.c9r", Some(1382)),
        (1384, ".c9r", Some(1382)),
        (1388, ".c9r", Some(1382)),
        (5000, "", Some(1382)),
        (1380, "=", Some(1380)),
        (1381, "=", Some(1381)),
        (1381, "", Some(1381)),
        (1382, "==.c9r=", Some(1388)),
    ] {
        assert_eq!(at(digits, behind, MAX_FULL_LEN), place, "{digits} {behind}");
        assert_eq!(at(digits, behind, 5000), place, "{digits} {behind}");
    }
}

/// Where four characters are the most that fit before the suffix, all of these,
/// against all full names that begin so.
#[test]
fn among_all_starts() {
    for (digits, limit) in [(20, 28), (24, 35), (212, 220), (1380, 1388)] {
        let start = vec![b'A'; digits];
        let mut full_names = texts(&start, b"AQEBc9r=", 4);
        for text in &mut full_names {
            text.extend_from_slice(FULL_SUFFIX.as_bytes());
        }
        let starts = Starts::new(digits, full_names, |text| decode(text, limit).is_some());
        for text in texts(&start, b"AQEBc9r=.+", 4) {
            if let Err(place) = sealed_name(&text, limit) {
                assert_eq!(place, starts.place(&text), "{text:?}");
            }
        }
    }
}
