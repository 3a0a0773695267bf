/// What a picture may need: width and height are 1 to 1,000,000 each, repeats and pixels 1 to 10^12 (rule 1.1).
///
/// A number out of its range is refused when a session is opened ([`Refusal::Opening`](crate::Refusal::Opening)).
#[derive(Clone, Copy, Debug, PartialEq, Eq)]
pub struct Limits {
    /// The largest width.
    pub width: usize,
    /// The largest height.
    pub height: usize,
    /// The largest repeat.
    pub repeats: usize,
    /// The most pixels.
    pub pixels: usize,
}

impl Limits {
    /// The house limits (rule 1.2).
    pub const HOUSE: Self = Self { width: 1_024, height: 768, repeats: 1_024, pixels: 786_432 };
    /// The crate limits, which icy_sixel has compiled in (rule 1.2).
    pub const CRATE: Self = Self { width: 1_000_000, height: 1_000_000, repeats: 65_535, pixels: 67_108_864 };

    /// The smallest allowance of ink that a feed takes: six times the width (rule 6.2).
    pub const fn least_allowance(self) -> usize {
        self.width.saturating_mul(6)
    }
}

impl Default for Limits {
    fn default() -> Self {
        Self::CRATE
    }
}
