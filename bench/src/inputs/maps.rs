//! Band maps: a bar for each bin, with a cut-off line across.
use super::encode::{encode, Order, Rows};
use super::Raster;
use crate::random::{shift, Random};

#[derive(Clone, Copy)]
pub enum Map {
    /// A bar is as high as chance has it, in the colour of its height: columns side by side differ.
    Bars,
    /// A bar is about as high as its neighbour, coloured along its height: columns side by side are alike.
    Walk,
}

const LINE: u8 = 7;

pub fn map(kind: Map, order: Order, seed: u32, bins: usize, height: usize, raster: Raster) -> Vec<u8> {
    let rows = match kind {
        Map::Bars => bars(seed, bins, height),
        Map::Walk => walk(seed, bins, height),
    };
    (raster.text(bins, height) + &encode(&rows, order)).into_bytes()
}

/// Row by row from the top; `cell` is told a bin and how far from below.
fn rows(bins: usize, height: usize, cell: impl Fn(usize, usize) -> u8) -> Rows {
    let row = |from_below: usize| {
        let of_bin = |bin| if from_below == height / 2 { LINE } else { cell(bin, from_below) };
        (0..bins).map(of_bin).collect()
    };
    (0..height).rev().map(row).collect()
}

fn bars(seed: u32, bins: usize, height: usize) -> Rows {
    let tall = |bin: usize| {
        let place = bin + shift(seed);
        height / 8 + (place * place * 7 + place * 13) % (height * 3 / 4)
    };
    rows(bins, height, |bin, from_below| if from_below < tall(bin) { 1 + (tall(bin) * 5 / height) as u8 } else { 0 })
}

fn walk(seed: u32, bins: usize, height: usize) -> Rows {
    let (mut random, mut tall, step) = (Random::new(seed), height / 2, height / 48);
    let bars: Vec<usize> = (0..bins)
        .map(|_| {
            tall = (tall + random.below(2 * step + 1)).saturating_sub(step).clamp(height / 8, height * 7 / 8);
            tall
        })
        .collect();
    rows(bins, height, |bin, from_below| if from_below < bars[bin] { 1 + (from_below * 6 / height) as u8 } else { 0 })
}
