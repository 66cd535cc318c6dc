//! A small generator of pseudo-random numbers: the same seed gives the same
//! numbers on every machine.

/// SplitMix64.
#[derive(Clone, Debug)]
pub(crate) struct Rng {
    state: u64,
}

impl Rng {
    pub fn new(seed: u64) -> Self {
        Rng { state: seed }
    }

    /// A generator for another purpose, so that a stream and the questions
    /// asked of it don't follow each other's numbers under one seed.
    pub fn for_purpose(seed: u64, purpose: u64) -> Self {
        let mut mixer = Rng::new(seed ^ purpose.wrapping_mul(0xD6E8_FEB8_6659_FD93));
        Rng::new(mixer.next())
    }

    #[inline]
    pub fn next(&mut self) -> u64 {
        self.state = self.state.wrapping_add(0x9E37_79B9_7F4A_7C15);
        let mut mixed = self.state;
        mixed = (mixed ^ mixed >> 30).wrapping_mul(0xBF58_476D_1CE4_E5B9);
        mixed = (mixed ^ mixed >> 27).wrapping_mul(0x94D0_49BB_1331_11EB);
        mixed ^ mixed >> 31
    }

    /// A number below `limit`, which is not 0.
    #[inline]
    pub fn below(&mut self, limit: usize) -> usize {
        debug_assert!(limit > 0);
        ((u128::from(self.next()) * limit as u128) >> 64) as usize
    }

    /// A number from `least` to `greatest`, both included.
    #[inline]
    pub fn between(&mut self, least: usize, greatest: usize) -> usize {
        least + self.below(greatest - least + 1)
    }

    /// Mostly near `least`, at times up to `greatest`.
    pub fn mostly_small(&mut self, least: usize, greatest: usize) -> usize {
        let reach = greatest - least;
        let shift = self.below(usize::BITS as usize - reach.leading_zeros() as usize + 1);
        least + self.below((reach >> shift) + 1)
    }

    /// True so many times of a hundred.
    #[inline]
    pub fn percent(&mut self, times: usize) -> bool {
        self.below(100) < times
    }

    #[inline]
    pub fn pick<T: Copy>(&mut self, choices: &[T]) -> T {
        choices[self.below(choices.len())]
    }

    #[inline]
    pub fn byte(&mut self) -> u8 {
        self.next() as u8
    }

    #[inline]
    pub fn word(&mut self) -> u16 {
        self.next() as u16
    }

    #[inline]
    pub fn long(&mut self) -> u32 {
        self.next() as u32
    }

    /// Appends so many random bytes.
    pub fn append(&mut self, bytes: &mut Vec<u8>, count: usize) {
        let end = bytes.len() + count;
        while bytes.len() + 8 <= end {
            bytes.extend(self.next().to_le_bytes());
        }
        let last = self.next().to_le_bytes();
        bytes.extend(&last[..end - bytes.len()]);
    }

    /// So many random bytes.
    pub fn bytes(&mut self, count: usize) -> Vec<u8> {
        let mut bytes = Vec::with_capacity(count + 8);
        self.append(&mut bytes, count);
        bytes
    }

    /// Puts the items into a random order.
    pub fn shuffle<T>(&mut self, items: &mut [T]) {
        for last in (1..items.len()).rev() {
            items.swap(last, self.below(last + 1));
        }
    }
}
