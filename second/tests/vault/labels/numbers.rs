//! Numbers in every form.

use super::{bare, payload, row, with_member};
use crate::compare::Compare;
use crate::part::{Part, Run::Once};

pub const PARTS: &[Part] = &[
    ("labels: forms of numbers", Once(forms)),
    ("labels: every small number", Once(small)),
    ("labels: numbers around powers of two", Once(powers)),
    ("labels: long numbers", Once(long)),
    ("labels: every short row of marks", Once(marks)),
];

const COMBO: &str = r#""SIV_GCM""#;

/// The row of a number as the format, with all else right.
fn format(compare: &mut Compare, number: &str) -> u32 {
    row(compare, &bare()[0], payload(number, COMBO, "220"))
}

/// The row of a number as the threshold.
fn threshold(compare: &mut Compare, number: &str) -> u32 {
    row(compare, &bare()[0], payload("8", COMBO, number))
}

/// The row of a number that is not looked at.
fn unknown(compare: &mut Compare, number: &str) -> u32 {
    let place = compare.random.below(2);
    with_member(compare, place, format!(r#""x":{number}"#))
}

/// Whole numbers are of the right kind, and none of these is the right one.
fn forms(compare: &mut Compare) {
    for whole in [
        "0", "-0", "1", "-1", "-8", "-36", "-100", "-220", "10", "-10",
    ] {
        let rows = [format, threshold, unknown].map(|row| row(compare, whole));
        assert_eq!(rows, [16, 18, 0], "{whole}");
    }
    for number in [
        "8.0", "8.00", "36.0", "100.5", "0.0", "-0.0", "-0.5", "8e0", "8E0", "8e+0", "8E+0",
        "8e-0", "8E-0", "8e00", "80e-1", "0e0", "-0e0", "0E5", "1e2", "1E2", "1e+2", "10e1",
        "0.8e1", "1000e-1", "1.0e2", "1.5E-3", "1e999", "-1e-999", "8.0e0", "100.0E0", "0.1e0001",
    ] {
        let rows = [format, threshold, unknown].map(|row| row(compare, number));
        assert_eq!(rows, [13, 13, 0], "{number}");
    }
    for other in [
        "00", "08", "008", "-00", "-08", "036", "0100", "0220", "+8", "+0", "+36", "--8", "-", "+",
        ".", "8.", ".8", "-.8", "-8.", "8.e0", "8e", "8E", "8e+", "8e-", "e8", "8e0.5", "8e 0",
        "8 e0", "- 8", "8 .0", "8. 0", "0x8", "0x24", "0b1000", "0o10", "8_0", "1,00", "1 00",
        "8f", "8L", "8n", "1/2", "8..0", "8.0.0", "8ee0", "8e++0", "8e+-0", "８", "٨", "²", "−8",
        "8\0", "\0", "8\u{0b}", "8-", "8+", "8%", "(8)", "'8'",
    ] {
        let rows = [format, threshold, unknown].map(|row| row(compare, other));
        assert_eq!(rows, [13, 13, 13], "{other}");
    }
}

fn small(compare: &mut Compare) {
    for number in 0..=1100 {
        let text = number.to_string();
        let expected = if number == 8 { 0 } else { 16 };
        assert_eq!(format(compare, &text), expected);
        let expected = if (36..=220).contains(&number) { 0 } else { 18 };
        assert_eq!(threshold(compare, &text), expected);
        let negative = format!("-{number}");
        assert_eq!(format(compare, &negative), 16);
        assert_eq!(threshold(compare, &negative), 18);
        let (padded, longer) = (format!("0{number}"), format!("{number}.0"));
        for other in [padded, longer] {
            assert_eq!(format(compare, &other), 13);
            assert_eq!(threshold(compare, &other), 13);
        }
    }
}

/// Those that are a right one in their last bits, in decimals of up to 39
/// digits.
fn powers(compare: &mut Compare) {
    for bit in 8..128 {
        let power = 1u128 << bit;
        for number in [power - 1, power, power + 8] {
            assert_eq!(format(compare, &number.to_string()), 16);
        }
        for number in [power - 1, power, power + 36, power + 100, power + 220] {
            assert_eq!(threshold(compare, &number.to_string()), 18);
        }
    }
    // One more than the 128 bits have.
    for number in [
        "340282366920938463463374607431768211456",
        "340282366920938463463374607431768211464",
        "340282366920938463463374607431768211492",
    ] {
        let rows = [format, threshold].map(|row| row(compare, number));
        assert_eq!(rows, [16, 18]);
    }
}

/// A right number with many digits before or behind it.
fn long(compare: &mut Compare) {
    for digits in [
        2, 3, 9, 10, 11, 19, 20, 21, 38, 39, 40, 77, 78, 79, 255, 256, 257, 1000, 2000,
    ] {
        for number in ["8", "36", "220"] {
            for digit in ["1", "9"] {
                let front = digit.repeat(digits) + number;
                let behind = number.to_string() + &"0".repeat(digits);
                let sign = format!("-{front}");
                for text in [&front, &behind, &sign] {
                    let rows = [format, threshold, unknown].map(|row| row(compare, text));
                    let small = text.len() < 4 && (36..=220).contains(&text.parse().unwrap_or(0));
                    assert_eq!(rows, [16, if small { 0 } else { 18 }, 0], "{text}");
                }
            }
            let zeros = "0".repeat(digits) + number;
            let fraction = format!("{number}.{}", "0".repeat(digits));
            let exponent = format!("{number}e{}", "0".repeat(digits));
            for (text, row_unknown) in [(zeros, 13), (fraction, 0), (exponent, 0)] {
                let rows = [format, threshold, unknown].map(|row| row(compare, &text));
                assert_eq!(rows, [13, 13, row_unknown]);
            }
        }
    }
}

/// Up to five of the characters that numbers consist of.
fn marks(compare: &mut Compare) {
    let marks = b"08-+.e";
    for len in 1..=5u32 {
        for choice in 0..marks.len().pow(len) {
            let digits = (0..len).map(|i| marks[choice / marks.len().pow(i) % marks.len()]);
            let text = String::from_utf8(digits.collect()).expect("ASCII");
            let right = is_number(&text);
            let rows = [unknown, threshold].map(|row| row(compare, &text));
            let whole = right && !text.contains(['.', 'e']);
            let row = match (right, whole) {
                (true, true) if text == "80" || text == "88" => 0,
                (true, true) => 18,
                _ => 13,
            };
            assert_eq!(rows, [if right { 0 } else { 13 }, row], "{text}");
        }
    }
}

/// RFC 8259, section 6, of these characters.
fn is_number(text: &str) -> bool {
    let digits = |text: &str| !text.is_empty() && text.bytes().all(|byte| byte.is_ascii_digit());
    let text = text.strip_prefix('-').unwrap_or(text);
    let (text, exponent) = match text.split_once('e') {
        Some((text, exponent)) => (text, Some(exponent)),
        None => (text, None),
    };
    let (int, fraction) = match text.split_once('.') {
        Some((int, fraction)) => (int, Some(fraction)),
        None => (text, None),
    };
    let unsigned = exponent.map(|text| text.strip_prefix(['+', '-']).unwrap_or(text));
    digits(int)
        && (int == "0" || !int.starts_with('0'))
        && fraction.is_none_or(digits)
        && unsigned.is_none_or(digits)
}
