//! How often each call ended in what, by the combo that it was lent.

use crate::case::{Call, Case, End};
use crate::fault::Fault;
use crate::format;
use second::vault::Combo;
use std::fmt::{self, Display, Formatter};

/// The ends by their row, with 0 for done.
const ENDS: [u32; 20] = [
    0, 1, 2, 3, 4, 5, 6, 7, 8, 9, 10, 11, 12, 13, 14, 15, 16, 17, 18, 20,
];

/// The columns after theirs: done with a shortened name, and a label whose
/// segment is broken, which is row 13 with a place.
const SHORTENED: usize = ENDS.len();
const SEGMENT: usize = ENDS.len() + 1;
const COLUMNS: usize = ENDS.len() + 2;

/// The lines of a call: with each combo, and with none that is known.
const LINES: [Option<Combo>; 3] = [Some(Combo::SivGcm), Some(Combo::SivCtrmac), None];

#[derive(Default)]
pub struct Tally([[[u64; COLUMNS]; LINES.len()]; Call::ALL.len()]);

impl Tally {
    pub fn count(&mut self, case: &Case, end: &End) {
        let column = match (case.call, end.row) {
            (Call::WriteName, 0) if end.other != 0 => SHORTENED,
            (Call::OpenLabel, 13) if end.place().is_some() => SEGMENT,
            (_, row) => {
                let place = ENDS.iter().position(|&other| other == row);
                place.unwrap_or_else(|| panic!("there is no row {row}"))
            }
        };
        let line = LINES.iter().position(|&line| line == combo(case, end));
        self.0[case.call as usize][line.expect("there are three")][column] += 1;
    }

    pub fn add(&mut self, other: &Tally) {
        let counts = self.0.as_flattened_mut().as_flattened_mut().iter_mut();
        for (count, more) in counts.zip(other.0.as_flattened().as_flattened()) {
            *count += more;
        }
    }

    pub fn total(&self) -> u64 {
        self.0.as_flattened().as_flattened().iter().sum()
    }

    /// The counts of each call with each combo and without.
    fn lines(&self) -> impl Iterator<Item = (Call, Option<Combo>, [u64; COLUMNS])> + '_ {
        let of_call = |call| {
            LINES
                .into_iter()
                .zip(self.0[call as usize])
                .map(move |(combo, counts)| (call, combo, counts))
        };
        Call::ALL.into_iter().flat_map(of_call)
    }

    /// Fails unless with each combo each call was done, gave each of its rows,
    /// and no other.
    pub fn assert_every_end(&self) {
        for (call, combo, counts) in self.lines() {
            for (column, count) in counts.into_iter().enumerate() {
                let end = title(column);
                assert_eq!(
                    count > 0,
                    is_possible(call, combo, column),
                    "{call:?} with {combo:?} ended {count} times in {end}"
                );
            }
        }
    }
}

/// The combo that was lent, or that a label has.
fn combo(case: &Case, end: &End) -> Option<Combo> {
    match (case.call, end.row) {
        (Call::OpenLabel, 0) => Combo::of_number(end.length as u32).ok(),
        _ => case.combo(),
    }
}

fn is_possible(call: Call, combo: Option<Combo>, column: usize) -> bool {
    let succeeds = match call {
        Call::WrapKey | Call::UnwrapKey => combo.is_none(),
        _ => combo.is_some(),
    };
    match column {
        SHORTENED => succeeds && call == Call::WriteName,
        SEGMENT => combo.is_none() && call == Call::OpenLabel,
        _ if ENDS[column] == 0 => succeeds,
        _ => {
            let mut faults = call.faults().iter();
            faults.any(|fault| fault.row() == ENDS[column] && is_found(call, combo, *fault))
        }
    }
}

/// Whether a fault that the call looks for can be the first: a vault or a reader
/// that is none keeps it from all others, but that a threshold comes before the
/// combo where one is lent, and behind it where one is made.
fn is_found(call: Call, combo: Option<Combo>, fault: Fault) -> bool {
    let of_vault = matches!(fault, Fault::VaultSize | Fault::Combo | Fault::NoReader);
    match (call, fault) {
        (Call::OpenLabel | Call::WrapKey | Call::UnwrapKey, _) => combo.is_none(),
        (Call::MakeVault, Fault::Threshold) => combo.is_some(),
        (Call::MakeVault, _) => combo.is_none() || !of_vault,
        (_, Fault::Threshold) => true,
        _ => combo.is_none() == of_vault,
    }
}

fn title(column: usize) -> String {
    match column {
        SHORTENED => "shortened".to_string(),
        SEGMENT => "segment".to_string(),
        _ if ENDS[column] == 0 => "done".to_string(),
        _ => format!("row {}", ENDS[column]),
    }
}

impl Display for Tally {
    fn fmt(&self, f: &mut Formatter) -> fmt::Result {
        write!(f, "{:26}", "")?;
        for column in 0..COLUMNS {
            write!(f, " {:>9}", title(column))?;
        }
        for (call, combo, counts) in self.lines() {
            if counts == [0; COLUMNS] {
                continue;
            }
            let combo = combo.map_or("no combo", format::name);
            write!(f, "\n{:15} {combo:10}", format!("{call:?}"))?;
            for count in counts {
                match count {
                    0 => write!(f, " {:>9}", "-")?,
                    _ => write!(f, " {count:>9}")?,
                }
            }
        }
        Ok(())
    }
}
