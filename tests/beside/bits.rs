//! Sets of whole numbers, a bit each.

#[derive(Clone, Default)]
pub struct Bits(Vec<u64>);

impl Bits {
    pub fn insert(&mut self, number: usize) {
        if self.0.len() <= number / 64 {
            self.0.resize(number / 64 + 1, 0);
        }
        self.0[number / 64] |= 1 << (number % 64);
    }

    pub fn remove(&mut self, number: usize) {
        if let Some(word) = self.0.get_mut(number / 64) {
            *word &= !(1 << (number % 64));
        }
    }

    pub fn has(&self, number: usize) -> bool {
        let word = self.0.get(number / 64).copied().unwrap_or(0);
        word >> (number % 64) & 1 == 1
    }

    /// Takes in all numbers of the other set.
    pub fn join(&mut self, other: &Bits) {
        if self.0.len() < other.0.len() {
            self.0.resize(other.0.len(), 0);
        }
        for (word, more) in self.0.iter_mut().zip(&other.0) {
            *word |= more;
        }
    }

    /// The lowest number of this set that is in neither of the two others.
    pub fn first_outside(&self, one: &Bits, other: &Bits) -> Option<usize> {
        let word_of = |set: &Bits, place: usize| set.0.get(place).copied().unwrap_or(0);
        self.0.iter().enumerate().find_map(|(place, word)| {
            let left = word & !word_of(one, place) & !word_of(other, place);
            (left != 0).then(|| place * 64 + left.trailing_zeros() as usize)
        })
    }
}
