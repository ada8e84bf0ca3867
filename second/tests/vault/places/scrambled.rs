//! Names and labels with random changes of their characters.

use crate::case::Call;
use crate::compare::Compare;
use crate::fault::scramble;
use crate::make;
use crate::part::{Part, Run::Each};
use second::vault::Combo;

pub const PARTS: &[Part] = &[
    ("places: scrambled names", Each(names)),
    ("places: scrambled labels", Each(labels)),
];

/// How many calls of each kind are made.
const CALLS: usize = 15_000;

/// Makes calls of this kind, and gives how many had a place.
fn scrambled(compare: &mut Compare, combo: Combo, call: Call) -> usize {
    let mut places = 0;
    for _ in 0..CALLS {
        let mut case = make::case(call, &mut compare.random, combo);
        scramble(&mut case, &mut compare.random);
        places += usize::from(compare.end(&case).place().is_some());
    }
    places
}

/// Most are broken, but not all.
fn names(compare: &mut Compare, combo: Combo) {
    for call in [Call::OpenName, Call::OpenLongName] {
        let places = scrambled(compare, combo, call);
        assert!((CALLS / 2..CALLS).contains(&places), "{places}");
    }
}

/// Some have other dots, or are right but for the signature.
fn labels(compare: &mut Compare, combo: Combo) {
    let places = scrambled(compare, combo, Call::OpenLabel);
    assert!((CALLS / 4..CALLS).contains(&places), "{places}");
}
