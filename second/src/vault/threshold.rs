//! The shortening threshold: how many characters a stored name has at most.

use super::Refusal;
use std::ops::RangeInclusive;

const THRESHOLDS: RangeInclusive<u8> = 36..=220;

/// A number by what a threshold can be (row 18).
pub fn threshold(number: u32) -> Result<u8, Refusal> {
    let threshold = u8::try_from(number).map_err(|_| Refusal::Threshold)?;
    check_threshold(threshold)?;
    Ok(threshold)
}

/// Row 18.
pub fn check_threshold(threshold: u8) -> Result<(), Refusal> {
    Refusal::Threshold.unless(THRESHOLDS.contains(&threshold))
}

#[cfg(test)]
mod tests {
    use super::*;

    #[test]
    fn numbers() {
        for number in 36..=220 {
            assert_eq!(threshold(number), Ok(number as u8));
        }
        let others = [256 + 36, 256 + 220, 65_536 + 100, u32::MAX];
        for number in (0..36).chain(221..600).chain(others) {
            assert_eq!(threshold(number), Err(Refusal::Threshold));
        }
    }
}
