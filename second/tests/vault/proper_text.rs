//! Names that are text, and bytes that are not: each is written, and opened
//! after `second` sealed it.

use crate::case::{Call, Case};
use crate::common::text::{is_text, random_text};
use crate::compare::Compare;
use crate::fault::stray;
use crate::format::{LONGEST_NAME, LONGEST_PLAIN};
use crate::make;
use crate::part::{Part, Run::Each};
use second::vault::Combo;

pub const PARTS: &[Part] = &[
    (
        "text: every byte and every two bytes",
        Each(one_and_two_bytes),
    ),
    ("text: every third byte at a border", Each(third_bytes)),
    ("text: four bytes at the borders", Each(four_bytes)),
    ("text: surrogates", Each(surrogates)),
    ("text: overlong forms", Each(overlong)),
    ("text: past the last character", Each(past_the_last)),
    ("text: every cut", Each(cuts)),
    ("text: 0 and '/' at every place", Each(zeros_and_slashes)),
    ("text: a stray byte at every place", Each(stray_bytes)),
    ("text: not text, moved", Each(moved)),
];

/// The vault and the directory of the calls.
fn place(compare: &mut Compare, combo: Combo) -> Case {
    make::write_name(&mut compare.random, combo, 1)
}

/// Writes and opens the name, of 1 to 1,020 bytes, and gives whether it is one.
fn both(compare: &mut Compare, place: &Case, name: &[u8]) -> bool {
    let row = if is_text(name) { 0 } else { 3 };
    let mut write = place.clone();
    write.inputs[2] = name.to_vec();
    write.buffers = [220, 1388].map(|len| compare.random.bytes(len)).to_vec();
    assert_eq!(compare.row(&write), row, "written: {name:x?}");
    let open = make::open_sealed(&mut compare.random, place, name);
    assert_eq!(compare.row(&open), row, "opened: {name:x?}");
    row == 0
}

fn one_and_two_bytes(compare: &mut Compare, combo: Combo) {
    let place = place(compare, combo);
    let mut proper = 0;
    for one in 0..=255 {
        proper += u32::from(both(compare, &place, &[one]));
        for two in 0..=255 {
            proper += u32::from(both(compare, &place, &[one, two]));
        }
    }
    // 126 characters of one byte, 30 times 64 of two.
    assert_eq!(proper, 126 + 126 * 126 + 30 * 64);
}

/// Behind each two bytes at which a range of second bytes begins or ends, with
/// and without a fourth byte.
fn third_bytes(compare: &mut Compare, combo: Combo) {
    let place = place(compare, combo);
    for (lead, seconds) in [
        (0xe0, [0x9f, 0xa0]),
        (0xe1, [0x7f, 0x80]),
        (0xec, [0xbf, 0xc0]),
        (0xed, [0x9f, 0xa0]),
        (0xee, [0x7f, 0x80]),
        (0xef, [0xbf, 0xc0]),
        (0xf0, [0x8f, 0x90]),
        (0xf1, [0x7f, 0x80]),
        (0xf3, [0xbf, 0xc0]),
        (0xf4, [0x8f, 0x90]),
        (0xf5, [0x7f, 0x80]),
    ] {
        for second in seconds {
            for third in 0..=255 {
                both(compare, &place, &[lead, second, third]);
                both(compare, &place, &[lead, second, third, 0x80]);
                both(compare, &place, &[lead, second, third, b'a']);
            }
        }
    }
}

fn four_bytes(compare: &mut Compare, combo: Combo) {
    let place = place(compare, combo);
    let edges = [
        0x00, 0x2f, 0x7f, 0x80, 0x8f, 0x90, 0x9f, 0xa0, 0xbf, 0xc0, 0xff,
    ];
    for lead in [0xef, 0xf0, 0xf1, 0xf3, 0xf4, 0xf5] {
        for second in edges {
            for third in edges {
                for fourth in edges {
                    both(compare, &place, &[lead, second, third, fourth]);
                }
            }
        }
    }
}

/// The bits of a number in this many bytes, however many it needs.
fn in_bytes(number: u32, len: usize) -> Vec<u8> {
    let lead = !0 << (8 - len) | (number >> (6 * (len - 1))) as u8;
    let tails = (0..len - 1).rev();
    let tails = tails.map(|i| 0x80 | (number >> (6 * i)) as u8 & 0x3f);
    [lead].into_iter().chain(tails).collect()
}

/// Each by itself, as a pair, and their neighbours.
fn surrogates(compare: &mut Compare, combo: Combo) {
    let place = place(compare, combo);
    for number in 0xd800..0xe000 {
        assert!(!both(compare, &place, &in_bytes(number, 3)));
    }
    let pair = [in_bytes(0xd84c, 3), in_bytes(0xdfb4, 3)].concat();
    assert!(!both(compare, &place, &pair));
    assert!(both(compare, &place, &in_bytes(0xd7ff, 3)));
    assert!(both(compare, &place, &in_bytes(0xe000, 3)));
}

/// Each number below the least of a length, in that length; for four bytes
/// some of them.
fn overlong(compare: &mut Compare, combo: Combo) {
    let place = place(compare, combo);
    for (len, least, step) in [(2, 0x80, 1), (3, 0x800, 1), (4, 0x1_0000, 61)] {
        for number in (0..least).step_by(step) {
            assert!(!both(compare, &place, &in_bytes(number, len)));
        }
        assert!(!both(compare, &place, &in_bytes(least - 1, len)));
        assert!(both(compare, &place, &in_bytes(least, len)));
    }
}

/// Also the forms of five and six bytes, which UTF-8 had once.
fn past_the_last(compare: &mut Compare, combo: Combo) {
    let place = place(compare, combo);
    assert!(both(compare, &place, &in_bytes(0x10_ffff, 4)));
    for number in (0x11_0000..0x20_0000).step_by(997) {
        assert!(!both(compare, &place, &in_bytes(number, 4)));
    }
    for (number, len) in [(0, 5), (0x20_0000, 5), (0, 6), (0x7fff_ffff, 6)] {
        assert!(!both(compare, &place, &in_bytes(number, len)));
    }
}

/// A text is cut after each of its bytes, and begun at each of them.
fn cuts(compare: &mut Compare, combo: Combo) {
    let place = place(compare, combo);
    for _ in 0..10 {
        let text = random_text(&mut compare.random, 100);
        for cut in 1..text.len() {
            both(compare, &place, &text[..cut]);
            both(compare, &place, &text[cut..]);
        }
    }
}

/// In place of each byte, and before and behind each byte.
fn zeros_and_slashes(compare: &mut Compare, combo: Combo) {
    let place = place(compare, combo);
    for len in [1, 2, 40, LONGEST_PLAIN, LONGEST_PLAIN + 1, LONGEST_NAME] {
        let text = random_text(&mut compare.random, len);
        for at in 0..len {
            for byte in [0, b'/', b'.'] {
                let mut changed = text.clone();
                changed[at] = byte;
                both(compare, &place, &changed);
            }
        }
        for at in (0..=len).filter(|_| len < LONGEST_NAME) {
            for byte in [0, b'/', b'.'] {
                let mut longer = text.clone();
                longer.insert(at, byte);
                both(compare, &place, &longer);
            }
        }
    }
}

fn stray_bytes(compare: &mut Compare, combo: Combo) {
    let place = place(compare, combo);
    for len in [3, LONGEST_PLAIN, LONGEST_PLAIN + 1, LONGEST_NAME] {
        let text = random_text(&mut compare.random, len);
        for at in 0..len {
            for byte in [0x7f, 0x80, 0xbf, 0xc0, 0xe0, 0xf4, 0xff] {
                let mut changed = text.clone();
                changed[at] = byte;
                both(compare, &place, &changed);
            }
        }
    }
}

/// In another directory row 12 comes first.
fn moved(compare: &mut Compare, combo: Combo) {
    let place = place(compare, combo);
    for len in [1, 16, LONGEST_PLAIN, LONGEST_PLAIN + 1, LONGEST_NAME] {
        for _ in 0..20 {
            let mut name = random_text(&mut compare.random, len);
            stray(&mut name, &mut compare.random);
            let mut open = make::open_sealed(&mut compare.random, &place, &name);
            assert_eq!(compare.row(&open), 3);
            open.inputs[1].push(b'd');
            open.inputs[1].remove(0);
            let same = open.inputs[1] == place.inputs[1];
            assert_eq!(compare.row(&open), if same { 3 } else { 12 });
            if open.call == Call::OpenLongName {
                open.inputs[2][0] ^= 1;
                assert_eq!(compare.row(&open), 11);
            }
        }
    }
}
