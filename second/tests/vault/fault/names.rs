//! Faults of names and paths.

use super::{flip, resize};
use crate::case::{Call, Case};
use crate::common::random::Random;
use crate::common::text::{is_text, random_text};
use crate::format::{longest_plain, LONGEST_NAME};
use crate::make::{self, full_name};
use second::base64url;

pub fn directory_id(case: &mut Case, random: &mut Random) {
    let id = &mut case.inputs[1];
    if random.below(2) == 0 {
        let len = 37 + random.below(2) * random.below(300);
        *id = (0..len).map(|_| random.below(128) as u8).collect();
    } else {
        *id = make::dir_id(random);
        id.truncate(35);
        let place = random.below(id.len() + 1);
        id.insert(place, 128 + random.below(128) as u8);
    }
}

/// A name that is too short, too long or not text, to write or sealed.
pub fn name(case: &mut Case, random: &mut Random) {
    if case.call != Call::WriteName {
        return sealed_name(case, random);
    }
    if random.below(2) == 0 {
        return stray(&mut case.inputs[2], random);
    }
    let len = random.below(2) * (LONGEST_NAME + 1 + random.below(2) * random.below(1000));
    case.inputs[2] = random_text(random, len);
}

/// The text of bytes that are not text, as many as there were.
fn sealed_name(case: &mut Case, random: &mut Random) {
    let mut name = make::sealed_in(case);
    stray(&mut name, random);
    case.inputs = make::open_sealed(random, case, &name).inputs;
}

/// Changes bytes until it is no longer text.
pub fn stray(name: &mut [u8], random: &mut Random) {
    while is_text(name) {
        let place = random.below(name.len());
        name[place] = match random.below(4) {
            0 => b"\0/"[random.below(2)],
            1 => b"\xc0\xc1\xe0\xed\xf0\xf4\xf5\xff"[random.below(8)],
            _ => 0x80 + random.below(0x80) as u8,
        };
    }
}

/// Breaks the text form. That of a plain name can also be too long.
pub fn text(case: &mut Case, random: &mut Random) {
    let call = case.call;
    let plain = longest_plain(case.threshold());
    let text = case.inputs.last_mut().expect("a text");
    let place = random.below(text.len());
    match random.below(7) {
        0 => text[place] = b"+/ ,\0\x80\xff\n*"[random.below(9)],
        1 => text.truncate(place),
        2 => drop(text.remove(place)),
        3 => text.insert(place, b'A'),
        4 => {
            let last = text.len() - 1 - random.below(4);
            text[last] ^= 1 + random.below(255) as u8;
        }
        5 => {
            let len = [random.below(17), LONGEST_NAME + 17 + random.below(100)][random.below(2)];
            *text = full_name(&random.bytes(len));
        }
        _ if call == Call::OpenName => {
            let len = plain + 17 + random.below(LONGEST_NAME - plain);
            *text = full_name(&random.bytes(len));
        }
        _ => spare_bits(text, random),
    }
}

/// Spare bits that are not all zero: the last character of 17 bytes has two of
/// them, that of 19 bytes has four.
fn spare_bits(text: &mut Vec<u8>, random: &mut Random) {
    let (len, behind) = [(17, "=.c9r"), (19, "==.c9r")][random.below(2)];
    *text = full_name(&random.bytes(len));
    let last = text.len() - behind.len() - 1;
    text[last] = b"BCD"[random.below(3)];
}

/// Another stored name, or a full name that need not be shortened.
pub fn hash_name(case: &mut Case, random: &mut Random) {
    match random.below(4) {
        0 => flip(&mut case.inputs[2], random),
        1 => {
            let len = [random.below(32), 33 + random.below(300)][random.below(2)];
            resize(&mut case.inputs[2], len, random);
        }
        2 => case.inputs[2][31] = b'r',
        _ => {
            let threshold = case.threshold();
            let len = 1 + random.below(longest_plain(threshold));
            let combo = case.combo().expect("a vault");
            let other = make::open_long_name_at(random, combo, threshold, len);
            case.inputs = other.inputs;
            case.buffers = other.buffers;
        }
    }
}

/// Another directory, or another bit of the sealed name.
pub fn synthetic_iv(case: &mut Case, random: &mut Random) -> bool {
    if random.below(2) == 0 {
        let id = make::dir_id(random);
        if id == case.inputs[1] {
            return false;
        }
        case.inputs[1] = id;
        return true;
    }
    let full = case.inputs.last_mut().expect("a text");
    let text = &full[..full.len() - 4];
    let mut sealed = base64url::decode(text, true).expect("a text");
    flip(&mut sealed, random);
    *full = full_name(&sealed);
    if case.call == Call::OpenLongName {
        case.inputs[2] = make::hash_name(&case.inputs[3]);
    }
    true
}
