//! Arbitrary numbers that a seed decides: splitmix64.

pub struct Rng {
    state: u64,
}

impl Rng {
    /// The numbers for one call of a seed's sequence: near seeds and near call numbers have nothing in common.
    pub fn new(seed: u64, number: u64) -> Rng {
        let mut rng = Rng { state: seed };
        let mixed = rng.any();
        Rng { state: mixed ^ number.wrapping_mul(0xD6E8_FEB8_6659_FD93) }
    }

    /// Any 64 bits.
    pub fn any(&mut self) -> u64 {
        self.state = self.state.wrapping_add(0x9E37_79B9_7F4A_7C15);
        let mut mixed = self.state;
        mixed = (mixed ^ (mixed >> 30)).wrapping_mul(0xBF58_476D_1CE4_E5B9);
        mixed = (mixed ^ (mixed >> 27)).wrapping_mul(0x94D0_49BB_1331_11EB);
        mixed ^ (mixed >> 31)
    }

    /// A number below the bound, which is above 0.
    pub fn below(&mut self, bound: usize) -> usize {
        (self.any() % bound as u64) as usize
    }

    /// A number from the first to the last, both among them.
    pub fn between(&mut self, first: usize, last: usize) -> usize {
        first + self.below(last - first + 1)
    }

    pub fn chance(&mut self, percent: usize) -> bool {
        self.below(100) < percent
    }

    /// One of these, of which there is at least one.
    pub fn pick<T: Copy>(&mut self, choices: &[T]) -> T {
        choices[self.below(choices.len())]
    }
}
