//! Labels with random changes, signed anew.

use crate::compare::Compare;
use crate::fault::mutate;
use crate::make;
use crate::part::{Part, Run::Each};
use second::vault::Combo;

pub const PARTS: &[Part] = &[
    ("labels: spelled at random", Each(spelled)),
    ("labels: changed at random", Each(changed)),
];

fn spelled(compare: &mut Compare, combo: Combo) {
    for _ in 0..5000 {
        let case = make::open_label(&mut compare.random, combo);
        let end = compare.end(&case);
        assert_eq!((end.row, end.length), (0, u64::from(combo.number())));
    }
}

/// Every row is among the ends, and few but not none are done.
fn changed(compare: &mut Compare, combo: Combo) {
    let mut ends = [0; 19];
    for _ in 0..30_000 {
        let mut case = make::open_label(&mut compare.random, combo);
        mutate(&mut case, &mut compare.random);
        ends[compare.row(&case) as usize] += 1;
    }
    for row in [0, 13, 14, 16, 17, 18] {
        assert!(ends[row] > 20, "row {row}: {ends:?}");
    }
    assert_eq!(ends[15], 0, "each is signed");
}
