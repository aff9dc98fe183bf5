//! Numbers drawn from a seed: the same seed always gives the same numbers.

pub struct Rng {
    state: u64,
}

impl Rng {
    /// A generator for one text: its seed, its kind's salt and its index.
    pub fn new(seed: u64, salt: u64, index: u64) -> Rng {
        let mixed = seed
            .wrapping_mul(0x9E37_79B9_7F4A_7C15)
            .wrapping_add(salt.wrapping_mul(0xD1B5_4A32_D192_ED03))
            .wrapping_add(index.wrapping_mul(0x8CB9_2BA7_2F3D_8DD7));
        let mut rng = Rng { state: mixed | 1 };
        for _ in 0..8 {
            rng.next();
        }
        rng
    }

    fn next(&mut self) -> u64 {
        self.state ^= self.state >> 12;
        self.state ^= self.state << 25;
        self.state ^= self.state >> 27;
        self.state.wrapping_mul(0x2545_F491_4F6C_DD1D)
    }

    /// 0 to one less than the limit.
    pub fn below(&mut self, limit: usize) -> usize {
        ((self.next() >> 11) % limit as u64) as usize
    }

    /// Lowest to highest, both included.
    pub fn between(&mut self, lowest: usize, highest: usize) -> usize {
        lowest + self.below(highest - lowest + 1)
    }

    /// True in so many cases of so many.
    pub fn chance(&mut self, cases: usize, of: usize) -> bool {
        self.below(of) < cases
    }

    pub fn pick<T: Copy>(&mut self, from: &[T]) -> T {
        from[self.below(from.len())]
    }

    pub fn shuffle<T>(&mut self, items: &mut [T]) {
        for i in (1..items.len()).rev() {
            items.swap(i, self.below(i + 1));
        }
    }
}
