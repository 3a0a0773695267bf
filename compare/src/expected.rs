//! The oracle's answer to a trial, and what the reader is lent for it.
use crate::reader::{Opening, Registers, GUARD, MARK};
use crate::trial::Trial;
use crate::values::Settings;
use oracle::random::Random;
use oracle::run::{run, Answer, Case, Entry};
use oracle::{SixelDecoder, LIMITS};

/// The oracle's answer to a trial, and the canvas on which a reader is put to it. The registers before and after are
/// colours: the Rust has no marks.
pub struct Expected {
    pub answer: Answer,
    pub owner: SixelDecoder,
    pub before: Registers,
    pub after: Registers,
    pub opening: Opening,
}

impl Expected {
    pub fn of(trial: &Trial) -> Self {
        let mut decoder = SixelDecoder::new();
        let frame = |entry, abort, pieces| Case { reset: false, entry, abort, pieces };
        if !trial.before.is_empty() {
            run(&mut decoder, &frame(Entry::Payload([None; 3]), false, vec![trial.before.clone()]));
        }
        let (owner, before) = (decoder.clone(), packed(&decoder.registers()));
        let answer = run(&mut decoder, &frame(trial.entry, trial.abort, trial.pieces.clone()));
        let opening = opening(trial, answer.size, before);
        Self { after: packed(&answer.registers), answer, owner, before, opening }
    }
}

fn packed(registers: &[u8]) -> Registers {
    std::array::from_fn(|at| u32::from_be_bytes([0, registers[4 * at], registers[4 * at + 1], registers[4 * at + 2]]))
}

fn opening(trial: &Trial, size: [usize; 2], colours: Registers) -> Opening {
    let [columns, rows, bytes] = trial.room;
    let stride = (size[0].max(1) + columns).min(1_000_000);
    let canvas = 4 * stride * (size[1].max(1) + rows) + bytes;
    // Any number above 65,535 says that there is none.
    let none = 65_536 + (trial.fill % 3) as u32 * 2_147_450_879;
    let [p1, p2] = settings(trial.entry).map(|setting| setting.map_or(none, u32::from));
    let buffer = filled(trial.fill, canvas + 2 * GUARD);
    let palette = if trial.noisy() { with_noise(trial.fill, colours) } else { colours };
    Opening { framed: trial.entry == Entry::Dcs, limits: LIMITS, stride, p1, p2, buffer, palette }
}

pub fn settings(entry: Entry) -> Settings {
    match entry {
        Entry::Payload([p1, p2, _]) => [p1, p2],
        _ => [None; 2],
    }
}

/// Marks, and whatever a caller may hold above them.
fn with_noise(seed: u64, colours: Registers) -> Registers {
    let noise = filled(!seed, colours.len());
    std::array::from_fn(|at| colours[at] + MARK * u32::from(noise[at]))
}

fn filled(seed: u64, size: usize) -> Vec<u8> {
    let mut random = Random::new(seed);
    let mut bytes = Vec::with_capacity(size + 8);
    while bytes.len() < size {
        bytes.extend(random.any().to_le_bytes());
    }
    bytes.truncate(size);
    bytes
}
