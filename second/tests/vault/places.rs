//! The places at which names are broken; of labels, those of random changes.

mod changes;
mod cuts;
mod limits;
mod longest;
mod padding;
mod scrambled;

use crate::case::{Call, Case};
use crate::common::random::Random;
use crate::compare::Compare;
use crate::format::LONGEST_NAME;
use crate::make::{self, with_text};
use crate::part::Part;
use second::vault::Combo;

pub const PARTS: [&[Part]; 6] = [
    changes::PARTS,
    cuts::PARTS,
    padding::PARTS,
    limits::PARTS,
    longest::PARTS,
    scrambled::PARTS,
];

/// Some of the alphabet, whose last four bits are zero, whose last two are, and
/// others; those that the text form has beside these; and some that it never has.
const CHARACTERS: &[u8] = b"AQgEc9r_-B=.+/ \n\0\x80\xff";

fn is_never_right(character: u8) -> bool {
    !(character.is_ascii_alphanumeric() || b"-_=.".contains(&character))
}

/// The plain opener in a vault with this threshold, with room for any name.
fn plain(random: &mut Random, combo: Combo, threshold: u8) -> Case {
    roomy(make::open_name_at(random, combo, threshold, 1))
}

/// The opener of pairs.
fn long(random: &mut Random, combo: Combo) -> Case {
    let threshold = make::threshold(random);
    roomy(make::open_long_name_at(
        random,
        combo,
        threshold,
        LONGEST_NAME,
    ))
}

fn roomy(mut case: Case) -> Case {
    case.buffers[0].resize(LONGEST_NAME, 0xa5);
    case
}

/// Both openers of a name that is stored as it is.
fn openers(random: &mut Random, combo: Combo, threshold: u8, name: usize) -> [Case; 2] {
    let plain = make::open_name_at(random, combo, threshold, name);
    let long = make::open_long_name_at(random, combo, threshold, name);
    assert_eq!(plain.call, Call::OpenName);
    [plain, long].map(roomy)
}

/// The place that both programs give for a text, or `None` if it is in the text
/// form.
fn place(compare: &mut Compare, case: &Case, text: impl AsRef<[u8]>) -> Option<usize> {
    let end = compare.end(&with_text(case, text.as_ref().to_vec()));
    assert_eq!(end.row == 5, end.place().is_some());
    end.place().map(|place| place as usize)
}
