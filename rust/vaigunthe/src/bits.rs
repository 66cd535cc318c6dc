//! Sets of numbers below a limit.

/// A bit for each number.
pub struct Bits(Vec<u64>);

impl Bits {
    pub fn none(limit: usize) -> Self {
        Bits(vec![0; limit.div_ceil(64)])
    }

    /// Puts a number in or takes it out, and says whether it was in.
    pub fn put(&mut self, number: usize, wanted: bool) -> bool {
        let (word, bit) = (&mut self.0[number / 64], 1 << (number % 64));
        let was = *word & bit != 0;
        *word = if wanted { *word | bit } else { *word & !bit };
        was
    }

    /// Its numbers, in order.
    pub fn numbers(&self) -> impl Iterator<Item = usize> + '_ {
        let words = self.0.iter().enumerate().filter(|(_, word)| **word != 0);
        words.flat_map(|(place, word)| {
            let set = (0..64).filter(move |bit| word >> bit & 1 != 0);
            set.map(move |bit| place * 64 + bit)
        })
    }
}

#[cfg(test)]
mod tests {
    use super::*;

    #[test]
    fn numbers_in_and_out() {
        let mut bits = Bits::none(65);
        for number in [64, 0, 63, 7] {
            assert!(!bits.put(number, true));
        }
        assert!(bits.put(7, false) && bits.put(0, true));
        assert_eq!(bits.numbers().collect::<Vec<_>>(), [0, 63, 64]);
    }
}
