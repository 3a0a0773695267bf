//! What comparisons came to, in numbers.
use crate::trial::Trial;
use oracle::run::Answer;

/// How the calls of a session stand.
#[derive(Default)]
pub struct Calls {
    pub made: u64,
    pub smallest: Option<usize>,
    pub consumed: u64,
    pub ink: u128,
    pub stops: u64,
    /// After the last piece that was taken whole: all bytes consumed, and the last report.
    pub by_pieces: u64,
    pub last: [u64; 4],
    pub refused: u64,
    /// How often the canvas was looked at between two calls.
    pub glances: u64,
}

/// What one comparison came to, or many: a count for each of these names.
pub const COUNTED: [&str; 15] = [
    "pictures",
    "refused-1",
    "refused-2",
    "refused-3",
    "refused-4",
    "refused-5",
    "refused-6",
    "refused-7",
    "refused-8",
    "dropped",
    "calls",
    "stops",
    "ink",
    "pixels",
    "glances",
];

#[derive(Clone, Copy, Default)]
pub struct Tally(pub [u64; COUNTED.len()]);

impl Tally {
    pub fn new(trial: &Trial, answer: &Answer, calls: &Calls) -> Self {
        let mut counts = [0; COUNTED.len()];
        // Pictures stand at 0, refusals at their numbers.
        counts[if answer.refusal == 0 && trial.abort { 9 } else { usize::from(answer.refusal) }] = 1;
        let pixels = (answer.size[0] * answer.size[1]) as u64;
        counts[10..].copy_from_slice(&[calls.made, calls.stops, calls.ink as u64, pixels, calls.glances]);
        Self(counts)
    }

    pub fn add(&mut self, other: &Self) {
        for (mine, theirs) in self.0.iter_mut().zip(other.0) {
            *mine = mine.saturating_add(theirs);
        }
    }
}
