//! The Rust's colours in one binary file: every hue's checksum, percents, signed samples and the standard registers.
use crate::adler::adler32;
use crate::decoder::{peek_hls, peek_percent, SixelDecoder};
use crate::random::Random;

/// Where the samples begin; another seed is another file.
const SEED: u64 = 0x5349_5845_4c01;
const RANDOM_SAMPLES: usize = 9_000;

/// The whole file; `README.md` beside this crate names its four parts.
pub fn file() -> Vec<u8> {
    let mut out = Vec::new();
    for hue in 0..360 {
        out.extend(hue_checksum(hue).to_le_bytes());
    }
    out.extend((-300..=400).chain([i32::MIN, i32::MAX]).map(peek_percent));
    let samples = samples();
    out.extend((samples.len() as u32).to_le_bytes());
    for [h, l, s] in samples {
        for number in [h, l, s] {
            out.extend(number.to_le_bytes());
        }
        out.extend(peek_hls(h, l, s));
    }
    out.extend(SixelDecoder::new().registers().chunks(4).flat_map(|pixel| [pixel[0], pixel[1], pixel[2]]));
    out
}

/// The checksum of one hue's 101 x 101 colours, saturation fastest.
fn hue_checksum(hue: i32) -> u32 {
    let mut bytes = Vec::new();
    for l in 0..=100 {
        for s in 0..=100 {
            bytes.extend(peek_hls(hue, l, s));
        }
    }
    adler32(&bytes)
}

/// Triples outside the 360 x 101 x 101 plain ones, at their edges, and where an exact channel lies half way.
pub fn samples() -> Vec<[i32; 3]> {
    let mut all = edges();
    all.extend(ties());
    let mut random = Random::new(SEED);
    for _ in 0..RANDOM_SAMPLES {
        all.push([random_hue(&mut random), random_percent(&mut random), random_percent(&mut random)]);
    }
    all
}

/// Every meeting of an edge of i32, of a segment of the hue circle, and of the percents.
fn edges() -> Vec<[i32; 3]> {
    let hues = [
        i32::MIN,
        i32::MIN + 1,
        -721,
        -720,
        -361,
        -360,
        -359,
        -120,
        -1,
        0,
        60,
        119,
        120,
        121,
        180,
        239,
        240,
        241,
        300,
        359,
        360,
        361,
        720,
        i32::MAX - 1,
        i32::MAX,
    ];
    let percents = [i32::MIN, -1, 0, 1, 49, 50, 51, 99, 100, 101, i32::MAX];
    let mut all = Vec::new();
    for h in hues {
        for l in percents {
            for s in percents {
                all.push([h, l, s]);
            }
        }
    }
    all
}

/// Triples at which some exact channel, 510 C of 1,200,000, is a whole number and a half.
pub fn ties() -> Vec<[i32; 3]> {
    let mut all = Vec::new();
    let mut seen = 0usize;
    for h in 0..360 {
        for l in 0..=100 {
            for s in 1..=100 {
                if channels(h, l, s).iter().any(|c| (510 * c + 600_000) % 1_200_000 == 0) {
                    seen += 1;
                    // There are many: a few hundred spread over all of them will do.
                    if seen.is_multiple_of(97) {
                        all.push([h as i32, l as i32, s as i32]);
                    }
                }
            }
        }
    }
    all
}

/// The exact channels C of rule 9.5, of which 1,200,000 make two of 255 levels.
fn channels(h: i64, l: i64, s: i64) -> [i64; 3] {
    let hue = (h + 240) % 360;
    let q = if l < 50 { l * (100 + s) } else { 100 * l + 100 * s - l * s };
    let p = 200 * l - q;
    [hue + 120, hue, hue + 240].map(|turn| match turn % 360 {
        t if t < 60 => 60 * p + (q - p) * t,
        t if t < 180 => 60 * q,
        t if t < 240 => 60 * p + (q - p) * (240 - t),
        _ => 60 * p,
    })
}

fn random_hue(random: &mut Random) -> i32 {
    match random.below(5) {
        0 => random.any() as i32,
        1 => random.below(360) as i32,
        2 => random.below(4_000) as i32 - 2_000,
        3 => (random.below(11_930_464) as i32 - 5_965_232) * 360 + random.below(5) as i32 - 2,
        _ => random.near_end(),
    }
}

fn random_percent(random: &mut Random) -> i32 {
    match random.below(8) {
        0 => random.any() as i32,
        1 => random.below(400) as i32 - 150,
        2 => random.near_end(),
        _ => random.below(101) as i32,
    }
}
