//! The generator behind every input: the same seed makes the same bytes, and another seed other bytes of the same kind.

/// The seed that the figures of docs/SPEED.md were taken with.
pub const STANDARD_SEED: u32 = 1;

pub struct Random(u32);

impl Random {
    pub fn new(seed: u32) -> Self {
        Self(seed)
    }

    fn next(&mut self) -> u32 {
        self.0 = self.0.wrapping_mul(1_664_525).wrapping_add(1_013_904_223);
        self.0
    }

    /// From -0.5 to 0.5, of the upper bits: the lower ones of such a generator repeat soon.
    pub fn noise(&mut self) -> f64 {
        f64::from(self.next() >> 24) / 255.0 - 0.5
    }

    /// From 0 to below `end`.
    pub fn below(&mut self, end: usize) -> usize {
        ((u64::from(self.next()) * end as u64) >> 32) as usize
    }

    /// A sixel with ink, `@` to `~`.
    pub fn sixel(&mut self) -> char {
        (64 + self.below(63) as u8) as char
    }
}

/// How far an input without grain is moved; the standard seed moves nothing, so that its bytes are those of earlier figures.
pub fn shift(seed: u32) -> usize {
    seed.wrapping_sub(STANDARD_SEED) as usize % 10_000
}
