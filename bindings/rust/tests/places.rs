//! Where the text of a name is broken. Labels are in `labels.rs`.

use skrapnefja::*;

const ID: &[u8] = b"e9250eb8-078d-4fc0-8835-be92a313360c";

/// The full names of `log.txt` and of the bytes `log\xff`, which are 20 bytes in
/// text form.
const GOOD: &str = "OqqTxAfP7FzjGSL4Me_Nh4nIwq_yW8I=.c9r";
const TEXT: &str = "l9FzfPEc4alEQu_U5mc5EH00yhk=.c9r";

/// The bytes of a buffer before a call.
const OLD: u8 = 0xa5;

fn vault(threshold: u32) -> Vault {
    let combo = Combo::SivGcm;
    Vault::new(&[1; 32], &[2; 32], Label { combo, threshold }).expect("two keys, and a threshold")
}

/// The place that a call gives, which writes nothing.
fn place(call: impl FnOnce(&mut [u8]) -> Result<usize, Refusal>) -> u64 {
    let mut out = [OLD; MAX_NAME_LEN];
    let answer = call(&mut out);
    assert_eq!(out, [OLD; MAX_NAME_LEN], "a refusal changes nothing");
    match answer {
        Err(Refusal::Text(place)) => place,
        answer => panic!("another answer: {answer:?}"),
    }
}

fn in_stored(vault: &Vault, stored: &str) -> u64 {
    place(|out| vault.open_name(ID, stored.as_bytes(), out))
}

/// What is stored does not matter, also where it is broken too.
fn in_full(vault: &Vault, full: &str) -> u64 {
    place(|out| vault.open_long_name(ID, b"!", full.as_bytes(), out))
}

#[test]
fn broken_texts() {
    let vault = vault(MAX_THRESHOLD);
    for (text, place) in [
        // They only end too early.
        ("", 0),
        ("l9FzfPEc4alEQu_U5mc5EH00y", 25),
        ("l9FzfPEc4alEQu_U5mc5EH00yhk", 27),
        ("l9FzfPEc4alEQu_U5mc5EH00yhk=", 28),
        ("l9FzfPEc4alEQu_U5mc5EH00yhk=.c9", 31),
        // Characters that cannot be where they are.
        (" l9FzfPEc4alEQu_U5mc5EH00yhk=.c9r", 0),
        ("l9FzfPEc4alEQu/U5mc5EH00yhk=.c9r", 14),
        ("l9FzfPEc4alEQu_U=mc5EH00yhk=.c9r", 16),
        ("l9FzfPEc4alEQu_U5mc5EH00yhk.c9r", 27),
        ("l9FzfPEc4alEQu_U5mc5EH00yhk==.c9r", 28),
        ("l9FzfPEc4alEQu_U5mc5EH00yhk=.C9r", 29),
        ("l9FzfPEc4alEQu_U5mc5EH00yhk=.c9s", 31),
        ("l9FzfPEc4alEQu_U5mc5EH00yhk=.c9r\n", 32),
        // The mistake is before the place: spare bits, and a lost character.
        ("l9FzfPEc4alEQu_U5mc5EH00yhl=.c9r", 27),
        ("l9FzPEc4alEQu_U5mc5EH00yhk=.c9r", 26),
        // 15 and 16 bytes are too few.
        ("l9FzfPEc4alEQu_U5mc5.c9r", 20),
        ("l9FzfPEc4alEQu_U5mc5EA==.c9r", 22),
    ] {
        assert_eq!(in_stored(&vault, text), place, "{text:?}");
        assert_eq!(in_full(&vault, text), place, "{text:?}");
    }
}

/// One wrong character, at each place.
#[test]
fn wrong_characters() {
    let vault = vault(MAX_THRESHOLD);
    for place in 0..TEXT.len() {
        let mut text = TEXT.to_string();
        text.replace_range(place..=place, "!");
        assert_eq!(in_stored(&vault, &text), place as u64, "{text}");
        assert_eq!(in_full(&vault, &text), place as u64, "{text}");
    }
}

/// The text of a stored name is at most as long as the threshold, its end
/// included, and has whole groups of four characters.
#[test]
fn longer_than_the_threshold() {
    for threshold in MIN_THRESHOLD..=MAX_THRESHOLD {
        let (vault, place) = (vault(threshold), (threshold - 4) / 4 * 4);
        for text in ["A".repeat(400), "_".repeat(400)] {
            assert_eq!(in_stored(&vault, &text), place.into(), "{threshold}");
            assert_eq!(in_full(&vault, &text), 400);
        }
    }
}

/// A full name stands for 1,036 bytes at most: 345 groups of three, and one
/// byte in two characters, of which the second has spare bits.
#[test]
fn longer_than_the_longest() {
    let vault = vault(MAX_THRESHOLD);
    for (text, place) in [
        ("A".repeat(1400), 1382),
        ("B".repeat(1400), 1381),
        ("A".repeat(1382), 1382),
        ("A".repeat(1382) + "==.c9r.", 1388),
        ("B".repeat(1380) + ".c9R", 1383),
    ] {
        assert_eq!(in_full(&vault, &text), place, "{text}");
    }
}

/// In C, `at` is written with row 5 only, and `length` with success only.
#[test]
fn numbers() {
    let vault = [&[1; 32][..], &[2; 32], &[Combo::SivGcm as u8, 220]].concat();
    for (dir_id, text, plain, pair) in [
        (ID, GOOD, (0, 7, 73), (11, 72, 73)),
        (ID, TEXT, (3, 72, 73), (11, 72, 73)),
        (b"", TEXT, (12, 72, 73), (11, 72, 73)),
        (ID, "l9Fz!", (5, 72, 4), (5, 72, 4)),
        (&[0x80], "l9Fz!", (2, 72, 73), (2, 72, 73)),
    ] {
        let mut out = [OLD; MAX_NAME_LEN];
        let (mut length, mut at) = (72, 73);
        // SAFETY: slices and numbers, and none that is written overlaps another.
        let row = unsafe {
            call!(skrapnefja_open_name:
                in vault, in dir_id, in text, out out, set length, set at,)
        };
        assert_eq!((row, length, at), plain, "{text}");

        let (mut length, mut at, stored) = (72, 73, "!");
        // SAFETY: likewise.
        let row = unsafe {
            call!(skrapnefja_open_long_name:
                in vault, in dir_id, in stored, in text, out out, set length, set at,)
        };
        assert_eq!((row, length, at), pair, "{text}");
    }
}
