//! Places by going through all texts of a few symbols.

use std::collections::HashSet;
use std::iter::successors;

/// What well-formed texts begin with that all begin alike.
pub struct Starts {
    /// How many characters they have in common.
    common: usize,
    starts: HashSet<Vec<u8>>,
}

impl Starts {
    /// Of these texts the well-formed ones count.
    pub fn new(common: usize, texts: Vec<Vec<u8>>, is_well_formed: impl Fn(&[u8]) -> bool) -> Self {
        let well_formed = texts.iter().filter(|text| is_well_formed(text));
        let starts = well_formed.flat_map(|text| (common..=text.len()).map(|end| &text[..end]));
        Starts {
            common,
            starts: starts.map(Vec::from).collect(),
        }
    }

    /// The place in a text that also begins like them.
    pub fn place(&self, text: &[u8]) -> usize {
        let mut ends = self.common + 1..=text.len();
        let broken = ends.find(|&end| !self.starts.contains(&text[..end]));
        broken.map_or(text.len(), |end| end - 1)
    }
}

/// All texts of up to so many symbols behind a start.
pub fn texts(start: &[u8], symbols: &[u8], most: usize) -> Vec<Vec<u8>> {
    let longer = |texts: &Vec<Vec<u8>>| {
        let texts = texts.iter();
        let longer =
            texts.flat_map(|text| symbols.iter().map(|&symbol| [text, &[symbol][..]].concat()));
        Some(longer.collect())
    };
    let by_length = successors(Some(vec![start.to_vec()]), longer);
    by_length.take(1 + most).flatten().collect()
}
