//! Pictures of 256 colours: slow waves with grain over them.
use super::encode::{encode, Order, Rows};
use super::Raster;
use crate::random::Random;
use std::fmt::Write;

#[derive(Clone, Copy)]
pub enum Photo {
    /// Little grain, and so runs that repeats shorten.
    Smooth,
    /// Grain in each channel by itself, as dithering leaves it: hardly a run is longer than a pixel.
    ShortRuns,
}

pub fn photo(kind: Photo, seed: u32, width: usize, height: usize, raster: Raster) -> Vec<u8> {
    let mut random = Random::new(seed);
    let rows: Rows = (0..height)
        .map(|y| {
            let fy = y as f64 / height as f64;
            (0..width).map(|x| pixel(x as f64 / width as f64, fy, grain(kind, &mut random))).collect()
        })
        .collect();
    let mut text = raster.text(width, height);
    define_cube(&mut text);
    text += &encode(&rows, Order::Repeats);
    text.into_bytes()
}

/// What is added to red, green and blue, in levels.
fn grain(kind: Photo, random: &mut Random) -> [f64; 3] {
    match kind {
        Photo::Smooth => [random.noise() * 0.8; 3],
        Photo::ShortRuns => [(); 3].map(|()| random.noise() * SHORT_RUNS),
    }
}

/// So much that 800 x 480 pixels come to some 840,000 bytes, as a dithered photo does.
const SHORT_RUNS: f64 = 3.1;

fn pixel(fx: f64, fy: f64, grain: [f64; 3]) -> u8 {
    let level = |wave: f64, steps: f64, grain: f64| ((wave * 0.5 + 0.5) * steps + grain).clamp(0.0, steps - 0.01) as u8;
    let red = level((fx * 5.0 + fy * 2.0).sin(), 8.0, grain[0]);
    let green = level((fy * 7.0 - fx).cos(), 8.0, grain[1]);
    let blue = level((fx * 3.0 + fy * 4.0).cos(), 4.0, grain[2]);
    red * 32 + green * 4 + blue
}

/// 256 colours, eight levels of red and green and four of blue.
fn define_cube(text: &mut String) {
    for register in 0..256 {
        let (r, g, b) = (register / 32 * 100 / 7, register / 4 % 8 * 100 / 7, register % 4 * 100 / 3);
        write!(text, "#{register};2;{r};{g};{b}").unwrap();
    }
}
