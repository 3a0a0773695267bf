//! Payloads that are mostly one command: repeats, colour definitions, and sixels that make the picture grow.
use super::Raster;
use crate::random::{shift, Random};
use std::fmt::Write;

/// A colour a band, and one repeat across it: all fill.
pub fn long_repeats(seed: u32, width: usize, height: usize, raster: Raster) -> Vec<u8> {
    let mut text = raster.text(width, height);
    for band in 0..height / 6 {
        write!(text, "#{}!{width}~-", (band + shift(seed)) % 16).unwrap();
    }
    text.into_bytes()
}

/// Repeats of 4 to 35 across each band, of any register and sixel.
pub fn short_repeats(seed: u32, width: usize, height: usize, raster: Raster) -> Vec<u8> {
    let mut random = Random::new(seed);
    let mut text = raster.text(width, height);
    for _ in 0..height / 6 {
        let mut x = 0;
        while x < width {
            let count = (4 + random.below(32)).min(width - x);
            write!(text, "#{}!{count}{}", random.below(256), random.sixel()).unwrap();
            x += count;
        }
        text.push('-');
    }
    text.into_bytes()
}

#[derive(Clone, Copy)]
pub enum Space {
    Hls,
    Rgb,
}

/// Both spaces in turn, in steps; of each 512 definitions one is used, so that they are carried out.
pub fn stepped_definitions(seed: u32, count: usize) -> Vec<u8> {
    let mut text = String::new();
    for index in 0..count {
        let (space, at) = (1 + index % 2, index + shift(seed));
        write!(text, "#{};{space};{};{};{}", index % 256, at % 360, at % 101, at * 7 % 101).unwrap();
        if index % 512 == 511 {
            text += "~$";
        }
    }
    text.into_bytes()
}

/// One space, by chance; every definition has a sixel after it.
pub fn definitions(space: Space, seed: u32, count: usize) -> Vec<u8> {
    let mut random = Random::new(seed);
    let (number, first) = match space {
        Space::Hls => (1, 361),
        Space::Rgb => (2, 101),
    };
    let mut text = String::new();
    for _ in 0..count {
        let register = random.below(256);
        let [one, two, three] = [first, 101, 101].map(|end| random.below(end));
        write!(text, "#{register};{number};{one};{two};{three}~$").unwrap();
    }
    text.into_bytes()
}

/// The height is there first, by the raster or by bands of one column; then every sixel makes the picture one column wider.
pub fn growth(seed: u32, width: usize, height: usize, raster: Raster) -> Vec<u8> {
    let mut text = match raster {
        Raster::Given => raster.text(1, height),
        Raster::Missing => "@-".repeat(height / 6 - 1),
    };
    (0..width).for_each(|x| text.push(if (x + shift(seed)).is_multiple_of(2) { '~' } else { '@' }));
    text.into_bytes()
}

/// Each band is `step` columns wider than the one above, without a raster: both sides grow.
pub fn stairs(seed: u32, step: usize, bands: usize) -> Vec<u8> {
    let mut random = Random::new(seed);
    let mut text = String::new();
    for band in 1..=bands {
        write!(text, "#{}", random.below(256)).unwrap();
        (0..band * step).for_each(|_| text.push(random.sixel()));
        text.push('-');
    }
    text.into_bytes()
}

/// So many bytes of one column painted over and over, and only then `last`, which makes the picture large: whoever reads again
/// from the start when a picture outgrows its canvas reads all of it again.
pub fn late(length: usize, column: impl FnMut() -> String, last: &str) -> Vec<u8> {
    let mut text = String::new();
    let mut columns = std::iter::repeat_with(column);
    while text.len() < length {
        text.extend(columns.next());
    }
    (text + last).into_bytes()
}
