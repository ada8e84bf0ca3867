//! The comparison of one call.

use crate::case::{Case, End};
use crate::common::random::Random;
use crate::tally::Tally;
use crate::{library, predict};

/// Compares, counts, and has a source of random numbers.
pub struct Compare {
    pub random: Random,
    pub tally: Tally,
}

impl Compare {
    pub fn new(seed: u64) -> Self {
        Compare {
            random: Random::new(seed),
            tally: Tally::default(),
        }
    }

    /// Makes the call by both programs, and fails where they end in different
    /// results, numbers or buffers.
    pub fn end(&mut self, case: &Case) -> End {
        let predicted = predict::end(case);
        let actual = library::end(case);
        if predicted != actual {
            panic!("{}", difference(case, &predicted, &actual));
        }
        self.tally.count(case, &actual);
        actual
    }

    /// The row in which both ended, or 0.
    pub fn row(&mut self, case: &Case) -> u32 {
        self.end(case).row
    }
}

fn difference(case: &Case, predicted: &End, actual: &End) -> String {
    let lengths = |slices: &[Vec<u8>]| slices.iter().map(Vec::len).collect::<Vec<_>>();
    let places: Vec<_> = predicted
        .buffers
        .iter()
        .zip(&actual.buffers)
        .map(|(a, b)| a.iter().zip(b).position(|(a, b)| a != b))
        .collect();
    let mut text = format!(
        "{:?} with inputs of {:?} bytes, numbers {:?} and buffers of {:?} bytes: \
         library {}, second {}, first different bytes of the buffers {places:?}",
        case.call,
        lengths(&case.inputs),
        case.numbers,
        lengths(&case.buffers),
        numbers(actual),
        numbers(predicted),
    );
    if case.inputs.iter().map(Vec::len).sum::<usize>() < 2000 {
        text += &format!("\ninputs {:x?}", case.inputs);
    }
    text
}

fn numbers(end: &End) -> String {
    let End {
        row,
        length,
        other,
        at,
        ..
    } = end;
    format!("row {row} length {length} other {other} at {at}")
}
