//! The bench examples (docs/RULES.md, section 12) and some more: a payload, its limits and canvas, and its outcome.
#![allow(dead_code)] // Each test uses a part of it.
use owlgantry::{Limits, Ratio};

pub struct Example {
    pub payload: &'static str,
    pub limits: Limits,
    /// Stride and rows of a canvas that is lent.
    pub canvas: [usize; 2],
    /// The refusal's number, or size, extent, ink, ratio and every pixel: a letter of `color` each.
    pub outcome: Result<Outcome, u8>,
}

#[derive(Debug)]
pub struct Outcome {
    pub size: [usize; 2],
    pub extent: [usize; 2],
    pub ink: u64,
    pub ratio: Ratio,
    pub pixels: Vec<u8>,
}

const HOUSE_CANVAS: [usize; 2] = [1_024, 768];
const NO_RATIO: Ratio = Ratio::LeftToP1(None);

pub fn limits(width: usize, height: usize, repeats: usize, pixels: usize) -> Limits {
    Limits { width, height, repeats, pixels }
}

fn color(letter: char) -> [u8; 4] {
    match letter {
        'd' => [0x33, 0x33, 0xcc, 255],
        'r' => [255, 0, 0, 255],
        'b' => [0, 0, 255, 255],
        'w' => [255, 255, 255, 255],
        'k' => [0, 0, 0, 255],
        _ => panic!("no colour {letter}"),
    }
}

/// A picture of rows; the extent is its size unless it is said, and the ratio is left to P1.
fn picture(payload: &'static str, limits: Limits, rows: &[&str], ink: u64) -> Example {
    let size = [rows[0].len(), rows.len()];
    let pixels = rows.concat().chars().flat_map(color).collect();
    let outcome = Outcome { size, extent: size, ink, ratio: NO_RATIO, pixels };
    Example { payload, limits, canvas: HOUSE_CANVAS, outcome: Ok(outcome) }
}

fn refused(payload: &'static str, limits: Limits, number: u8) -> Example {
    Example { payload, limits, canvas: HOUSE_CANVAS, outcome: Err(number) }
}

impl Example {
    fn painted(mut self, right: usize, bottom: usize) -> Self {
        self.outcome.as_mut().expect("a picture").extent = [right, bottom];
        self
    }

    fn with_ratio(mut self, ratio: u8) -> Self {
        self.outcome.as_mut().expect("a picture").ratio = Ratio::Raster(ratio);
        self
    }

    fn on(mut self, canvas: [usize; 2]) -> Self {
        self.canvas = canvas;
        self
    }
}

pub fn examples() -> Vec<Example> {
    let house = Limits::HOUSE;
    let eight = "kkkkkkkk";
    vec![
        picture("", house, &["k"], 0).painted(0, 0),
        picture("~-?", house, &["k"; 12], 6).painted(1, 6),
        picture("!5#1~", house, &["ddddd"; 6], 30),
        picture("!0~", house, &["k"; 6], 6),
        picture("!1\n2~", house, &["kkkkkkkkkkkk"; 6], 72),
        picture("#1;2;100;0~", house, &["d"; 6], 6),
        picture("#1;2;100;0;~", house, &["r"; 6], 6),
        picture("#300~", house, &["w"; 6], 6),
        picture("~#0;2;100;100;100-~", house, &[["k"; 6], ["w"; 6]].concat(), 12),
        picture("\"2;1\"1;2", house, &["k"], 0).painted(0, 0),
        picture("!8~", limits(8, 768, 8, 786_432), &[eight; 6], 48),
        refused("!9~", limits(8, 768, 8, 786_432), 4),
        refused("!9~", limits(8, 768, 1_024, 786_432), 5),
        refused("--~", limits(1_024, 12, 1_024, 786_432), 5),
        picture("--", limits(1_024, 12, 1_024, 786_432), &["k"], 0).painted(0, 0),
        picture("!8~", limits(8, 12, 1_024, 48), &[eight; 6], 48),
        refused("!8~-?", limits(8, 12, 1_024, 48), 6),
        picture("!8~$!8~", limits(8, 768, 1_024, 786_432), &[eight; 6], 96),
        picture("#1;1;120;50;100~", house, &["r"; 6], 6),
        picture("#1;1;0;50;100~", house, &["b"; 6], 6),
        picture("#1;2;100;0;0!2B", limits(128, 128, 128, 16_384), &["rr", "rr", "kk", "kk", "kk", "kk"], 4)
            .painted(2, 2),
        picture("\"4;2;4;3#1!3@$#255A", house, &["dddk", "wkkk", "kkkk", "kkkk", "kkkk", "kkkk"], 4)
            .painted(3, 2)
            .with_ratio(2)
            .on([5, 7]),
        picture("#1~#255~#1~#255~-#1!4~", limits(4, 12, 9, 48), &[["dwdw"; 6], ["dddd"; 6]].concat(), 48).on([4, 12]),
        picture("\"3;1;2;2-\"5;1", house, &["kk", "kk"], 0).painted(0, 0).with_ratio(5).on([2, 2]),
        // The extent: no blank column, no blank row of a band, and nothing of what has only grown.
        picture("@!40?", house, &["k".repeat(41).as_str(); 6], 1).painted(1, 1),
        picture("_", house, &["k"; 6], 1),
        picture("!7?", house, &["kkkkkkk"; 6], 0).painted(0, 0),
        picture("\"1;1;4;3", house, &["kkkk"; 3], 0).painted(0, 0).with_ratio(1),
        picture("!3@", house, &["kkk"; 6], 3).painted(3, 1),
        picture("C", house, &["k"; 6], 1).painted(1, 3),
        picture("#1?@G?A??", house, &["kdkkkkk", "kkkkdkk", "kkkkkkk", "kkdkkkk", "kkkkkkk", "kkkkkkk"], 3)
            .painted(5, 4),
        picture("!3@-O$-", house, &["kkk"; 12], 4).painted(3, 11),
        // In the background's own colour, and covered by it later.
        picture("#0!2A", house, &["kk"; 6], 2).painted(2, 2),
        picture("#1!4B$#0!4B", house, &["kkkk"; 6], 16).painted(4, 2),
        // The last sixel waits for a second call, and counts when that reads it.
        picture("!8~-!8N", limits(8, 12, 8, 96), &[eight; 12], 80).painted(8, 10).on([8, 12]),
    ]
}

/// The bytes in pieces; 0 is all at once.
pub fn pieces(bytes: &[u8], size: usize) -> Vec<&[u8]> {
    if size == 0 {
        vec![bytes]
    } else {
        bytes.chunks(size).collect()
    }
}

pub fn sequence(payload: &str) -> Vec<u8> {
    [b"\x1bPq", payload.as_bytes(), b"\x1b\\"].concat()
}

/// A canvas that is not empty, so that a byte written outside the picture shows.
pub fn fresh_canvas([stride, rows]: [usize; 2]) -> Vec<u8> {
    (0..4 * stride * rows).map(|place| (place * 7 + 3) as u8).collect()
}

pub fn untouched_outside(canvas: &[u8], stride: usize, [width, height]: [usize; 2]) -> bool {
    canvas.iter().enumerate().all(|(place, &byte)| {
        let (column, row) = (place / 4 % stride, place / 4 / stride);
        (column < width && row < height) || byte == (place * 7 + 3) as u8
    })
}
