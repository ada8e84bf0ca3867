//! Damaged copies of a sealed message.

use super::random::Random;

pub trait Damage: Clone {
    /// What opening takes. The last is the sealed form.
    fn inputs(&mut self) -> Vec<&mut Vec<u8>>;

    /// All copies with one bit flipped in one of the inputs.
    fn one_bit_flips(&self) -> impl Iterator<Item = Self> {
        let bits = |(input, len)| (0..8 * len).map(move |bit| (input, bit));
        let places = lengths(self).into_iter().enumerate().flat_map(bits);
        places.map(|(input, bit)| self.flipped(input, bit))
    }

    /// One of these copies for each of the inputs that is not empty.
    fn random_flips(&self, random: &mut Random) -> Vec<Self> {
        let lengths = lengths(self).into_iter().enumerate();
        lengths
            .filter(|&(_, len)| len > 0)
            .map(|(input, len)| self.flipped(input, random.below(8 * len)))
            .collect()
    }

    /// A copy with the sealed form cut or made longer.
    fn with_sealed_len(&self, random: &mut Random, len: usize) -> Self {
        let mut copy = self.clone();
        let sealed = copy.inputs().pop().expect("a sealed form");
        let missing = len.saturating_sub(sealed.len());
        sealed.truncate(len);
        sealed.extend(random.bytes(missing));
        copy
    }

    fn flipped(&self, input: usize, bit: usize) -> Self {
        let mut copy = self.clone();
        copy.inputs()[input][bit / 8] ^= 1 << (bit % 8);
        copy
    }
}

fn lengths<M: Damage>(message: &M) -> Vec<usize> {
    let mut copy = message.clone();
    copy.inputs().iter().map(|input| input.len()).collect()
}
