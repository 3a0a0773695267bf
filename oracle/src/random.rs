//! A seeded pseudorandom number generator (SplitMix64): the same seed gives the same list on every machine.

pub struct Random(u64);

impl Random {
    pub fn new(seed: u64) -> Self {
        Self(seed)
    }

    pub fn any(&mut self) -> u64 {
        self.0 = self.0.wrapping_add(0x9e37_79b9_7f4a_7c15);
        let mut z = self.0;
        z = (z ^ (z >> 30)).wrapping_mul(0xbf58_476d_1ce4_e5b9);
        z = (z ^ (z >> 27)).wrapping_mul(0x94d0_49bb_1331_11eb);
        z ^ (z >> 31)
    }

    /// A number below `bound`, which is small, so that the remainder's bias is nothing.
    pub fn below(&mut self, bound: u64) -> u64 {
        self.any() % bound
    }

    /// One of the choices.
    pub fn pick<T: Copy>(&mut self, choices: &[T]) -> T {
        choices[self.below(choices.len() as u64) as usize]
    }

    /// A number a few steps from one of the two ends of i32.
    pub fn near_end(&mut self) -> i32 {
        let step = self.below(400) as i32;
        if self.below(2) == 0 {
            i32::MIN + step
        } else {
            i32::MAX - step
        }
    }
}
