//! Changes of characters without any thought, in names and in segments.

use crate::case::{Call, Case};
use crate::common::random::Random;
use crate::make::hash_name;

/// Characters that a text form has, those most often at which it can break, and
/// some that it never has.
const CHARACTERS: &[u8] = b"AQgEcwBCP_-9rc=====....c9r+/ \n\0\x80\xff";

/// What a text form ends in.
const ENDS: [&str; 9] = [
    "=", "==", "===", ".", ".c9r", "=.c9r", "==.c9r", ".c9s", "AA",
];

/// Changes some characters of the (full) name or of the label. The stored name
/// may follow the full name.
pub fn scramble(case: &mut Case, random: &mut Random) {
    let text = case.inputs.last_mut().expect("a text");
    for _ in 0..[1, 1, 2, 4][random.below(4)] {
        change(text, random);
    }
    if case.call == Call::OpenLongName && random.below(2) == 0 {
        case.inputs[2] = hash_name(&case.inputs[3]);
    }
}

/// Mostly near the end, where padding and spare bits are.
fn change(text: &mut Vec<u8>, random: &mut Random) {
    let len = text.len();
    let from_end = random.below(2) * random.below(14);
    let place = match from_end {
        0 => random.below(len + 1),
        _ => len.saturating_sub(from_end),
    };
    let character = CHARACTERS[random.below(CHARACTERS.len())];
    match random.below(7) {
        0 => text.truncate(place),
        1 if place < len => drop(text.remove(place)),
        2 => text.insert(place, character),
        3 => text.extend(ENDS[random.below(ENDS.len())].bytes()),
        4 => {
            text.truncate(place);
            text.extend(ENDS[random.below(ENDS.len())].bytes());
        }
        _ if place < len => text[place] = character,
        _ => text.push(character),
    }
}
