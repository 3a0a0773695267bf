//! One comparison's whole setting, as a function of a seed and a number.
use crate::model::{Bounds, Model};
use crate::streams;
use crate::values;
use oracle::random::Random;
use oracle::run::Entry;
use oracle::LIMITS;

#[derive(Clone, PartialEq)]
pub struct Trial {
    pub entry: Entry,
    /// A payload read first, for the registers that it leaves.
    pub before: Vec<u8>,
    pub abort: bool,
    pub pieces: Vec<Vec<u8>>,
    /// Taken in turn, one a call; never empty, each at least 6W.
    pub allowances: Vec<usize>,
    /// Margins: columns, rows and bytes that the canvas has beyond the picture.
    pub room: [usize; 3],
    /// The fill pattern that the canvas holds at the opening.
    pub fill: u64,
    /// Calls that must be refused by 12 and 13 and change nothing are put between the others.
    pub poked: bool,
    /// The canvas is looked at after each call, not only in the end.
    pub watched: bool,
}

/// The smallest allowance.
pub const LEAST: usize = 6 * LIMITS[0];

/// Pictures above so many pixels are rare, since they take long: one in so many of those that come up is kept.
const RARE: [(u64, u64); 3] = [(1 << 16, 1), (1 << 20, 64), (1 << 23, 2_048)];
const HEAVY: u64 = 10_000;

impl Trial {
    pub fn new(seed: u64, number: u64) -> Self {
        let mut random = Random::new(Random::new(seed).any() ^ number.wrapping_mul(0xd6e8_feb8_6659_fd93));
        let random = &mut random;
        let heavy = LIMITS[0] == 1_000_000 && random.below(HEAVY) == 0;
        let (entry, stream) = if heavy { heavy_stream(random) } else { thrifty_stream(random) };
        let whole = entry == Entry::OneShot;
        Self {
            entry,
            before: if random.below(4) == 0 { streams::colours(random) } else { Vec::new() },
            abort: !whole && random.below(12) == 0,
            pieces: pieces(random, &stream, if heavy { 3 } else { 12 }),
            allowances: (0..=random.below(4)).map(|_| allowance(random)).collect(),
            room: [random.pick(&[0, 0, 1, 3]), random.pick(&[0, 0, 1, 2]), random.pick(&[0, 0, 1, 3])],
            fill: random.any(),
            poked: random.below(8) == 0,
            watched: !heavy && random.below(8) == 0,
        }
    }

    /// Whether the palette's numbers have noise above their colours: marks, and what an opening drops.
    pub fn noisy(&self) -> bool {
        self.fill % 2 == 1
    }

    pub fn stream(&self) -> Vec<u8> {
        self.pieces.concat()
    }
}

/// A stream whose picture is small, or one of the few that are not.
fn thrifty_stream(random: &mut Random) -> (Entry, Vec<u8>) {
    loop {
        let (entry, stream) = streams::any(random);
        let [width, height] = area(entry, &stream);
        let kept = RARE.iter().find(|(pixels, _)| width * height <= *pixels);
        if kept.is_some_and(|(_, chance)| random.below(*chance) == 0) {
            return (entry, stream);
        }
    }
}

fn heavy_stream(random: &mut Random) -> (Entry, Vec<u8>) {
    let payload = streams::heavy(random);
    match random.below(3) {
        0 => (Entry::Dcs, [b"\x1bPq", &payload[..], b"\x1b\\"].concat()),
        1 => (Entry::OneShot, [b"\x90;1q", &payload[..]].concat()),
        _ => (Entry::Payload([None; 3]), payload),
    }
}

/// The visible area that a stream comes to.
pub fn area(entry: Entry, stream: &[u8]) -> [u64; 2] {
    let bounds = Bounds { limits: LIMITS.map(|limit| limit as u64), stride: u64::MAX, rows: u64::MAX };
    let nothing = &mut |_| ();
    let (mut model, payload) = match entry {
        Entry::Dcs => (Model::dcs(bounds), stream),
        Entry::Payload(_) => (Model::payload(bounds, [None; 2], nothing), stream),
        Entry::OneShot => match values::part(stream) {
            Ok((settings, place)) => (Model::payload(bounds, settings, nothing), &stream[place..]),
            Err(_) => return [0, 0],
        },
    };
    let _ = model.feed(payload, u64::MAX, nothing).and_then(|_| model.finish(nothing).map(|_| [0; 4]));
    model.area
}

/// Up to `most` pieces, some of them empty; now and then none at all, or one for each byte.
fn pieces(random: &mut Random, stream: &[u8], most: u64) -> Vec<Vec<u8>> {
    match random.below(64) {
        0 => return Vec::new(),
        1 if stream.len() <= 100 => return stream.iter().map(|&byte| vec![byte]).collect(),
        _ => {}
    }
    let mut cuts: Vec<usize> =
        (0..random.below(most)).map(|_| random.below(stream.len() as u64 + 1) as usize).collect();
    if random.below(3) == 0 {
        cuts.truncate(1);
    }
    cuts.extend([0, stream.len()]);
    cuts.sort_unstable();
    cuts.windows(2).map(|cut| stream[cut[0]..cut[1]].to_vec()).collect()
}

fn allowance(random: &mut Random) -> usize {
    match random.below(8) {
        0..=2 => LEAST,
        3..=4 => LEAST + random.below(4) as usize,
        5 => LEAST + random.below(LEAST as u64) as usize,
        6 => LEAST + random.below(1_000_000) as usize,
        _ => random.pick(&[usize::MAX, usize::MAX / 2 + 1, usize::MAX - LEAST]),
    }
}
