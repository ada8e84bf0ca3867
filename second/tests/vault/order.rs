//! The first fault that a call looks for wins, for each two faults of each
//! call. That is the lowest row, but that rows 18 and 17 of a lent vault, in this
//! order, come before all but the vault's size, so does row 17 of a reader, and
//! that an opener of names tries row 3 last.

use crate::case::Call;
use crate::compare::Compare;
use crate::fault::{spoil, Fault};
use crate::make;
use crate::part::{Part, Run::Each};
use second::vault::Combo;

pub const PARTS: &[Part] = &[("each row, and each two rows", Each(each_two_rows))];

fn each_two_rows(compare: &mut Compare, combo: Combo) {
    for call in Call::ALL {
        for (i, &later) in call.faults().iter().enumerate() {
            for &earlier in &call.faults()[..=i] {
                let large = call == Call::WriteFile && [earlier, later].contains(&Fault::Length);
                for _ in 0..if large { 2 } else { 25 } {
                    two_rows(compare, combo, call, [earlier, later]);
                }
            }
        }
    }
}

/// Makes both faults, or one if they are the same.
fn two_rows(compare: &mut Compare, combo: Combo, call: Call, [earlier, later]: [Fault; 2]) {
    loop {
        let mut case = make::case(call, &mut compare.random, combo);
        assert_eq!(compare.row(&case), 0, "{call:?} without a fault");
        let mut spoils = |fault| spoil(&mut case, fault, &mut compare.random);
        if spoils(later) && (earlier == later || spoils(earlier)) {
            let row = compare.row(&case);
            assert_eq!(
                row,
                earlier.row(),
                "{call:?} with {earlier:?} and {later:?}"
            );
            return;
        }
    }
}
