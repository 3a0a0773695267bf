//! A test double of the proved reader: the model with a canvas and colours.
use crate::model::{Bounds, Effect, Model};
use crate::reader::{Memory, Opening, Reader, Registers, FRAME, MARK, SESSION};
use crate::values::{self, Settings};
use oracle::decoder::{peek_hls, peek_percent};
use oracle::SixelDecoder;

pub struct StandIn {
    memory: Memory,
    model: Option<Model>,
    canvas: Canvas,
}

/// What effects change; the canvas's bytes and the registers are those of the memory.
#[derive(Default)]
struct Canvas {
    stride: usize,
    area: [usize; 2],
    background: [u8; 4],
    colour: [u8; 4],
    definitions: Vec<[u64; 5]>,
}

impl StandIn {
    pub fn new() -> Self {
        Self { memory: Memory::empty(), model: None, canvas: Canvas::default() }
    }

    /// The values of each definition that the picture has carried out.
    pub fn definitions(&self) -> &[[u64; 5]] {
        &self.canvas.definitions
    }

    fn start(&mut self, opening: &Opening) -> Bounds {
        self.memory = Memory::of(opening);
        self.memory.registers = lasting(opening.palette);
        self.memory.session[..SESSION].fill(1);
        self.canvas = Canvas { stride: opening.stride, ..Canvas::default() };
        let rows = self.memory.canvas().len() / (4 * opening.stride);
        Bounds { limits: opening.limits.map(|limit| limit as u64), stride: opening.stride as u64, rows: rows as u64 }
    }
}

impl Canvas {
    fn take(&mut self, effect: Effect, bytes: &mut [u8], registers: &mut Registers) {
        match effect {
            Effect::Begin { transparent } => {
                self.colour = rgba(registers[0]);
                self.background = if transparent { [0; 4] } else { self.colour };
                self.grow([1, 1], bytes);
            }
            Effect::Area { width, height } => self.grow([width as usize, height as usize], bytes),
            Effect::Stroke { column, row, repeat, bits } => {
                for y in (0..6).filter(|y| bits >> y & 1 == 1) {
                    for x in column..column + repeat {
                        self.pixel(bytes, x as usize, row as usize + y, self.colour);
                    }
                }
            }
            Effect::Colour { values } => {
                let register = values.first().map_or(0, |&value| value.min(255) as usize);
                if let [given, space @ (1 | 2), a, b, c] = values[..] {
                    self.definitions.push([given, space, a, b, c]);
                    let [a, b, c] = [a, b, c].map(|value| value as i32);
                    let [r, g, b] = if space == 1 { peek_hls(a, b, c) } else { [a, b, c].map(peek_percent) };
                    registers[register] = FRAME + MARK + u32::from_be_bytes([0, r, g, b]);
                }
                self.colour = rgba(registers[register]);
            }
        }
    }

    fn grow(&mut self, area: [usize; 2], bytes: &mut [u8]) {
        let old = std::mem::replace(&mut self.area, area);
        for y in 0..area[1] {
            for x in 0..area[0] {
                if x >= old[0] || y >= old[1] {
                    self.pixel(bytes, x, y, self.background);
                }
            }
        }
    }

    fn pixel(&self, bytes: &mut [u8], x: usize, y: usize, colour: [u8; 4]) {
        bytes[4 * (y * self.stride + x)..][..4].copy_from_slice(&colour);
    }
}

/// Colours and marks alone.
fn lasting(registers: Registers) -> Registers {
    registers.map(|number| number % FRAME)
}

fn rgba(packed: u32) -> [u8; 4] {
    let [_, r, g, b] = packed.to_be_bytes();
    [r, g, b, 255]
}

fn given(p: u32) -> Option<u16> {
    u16::try_from(p).ok()
}

fn numbered<const N: usize>(result: Result<[u64; N], u64>) -> (u64, [u64; N]) {
    result.map_or_else(|number| (number, [0; N]), |report| (0, report))
}

impl Reader for StandIn {
    fn open(&mut self, opening: &Opening) -> u64 {
        let bounds = self.start(opening);
        let Self { memory, canvas, .. } = self;
        let mut registers = memory.registers;
        let settings: Settings = [given(opening.p1), given(opening.p2)];
        let bytes = memory.canvas();
        let effects = &mut |effect| canvas.take(effect, bytes, &mut registers);
        self.model = Some(if opening.framed { Model::dcs(bounds) } else { Model::payload(bounds, settings, effects) });
        0
    }

    fn feed(&mut self, bytes: &[u8], allowance: usize, short: usize) -> (u64, [u64; 4]) {
        if short > 0 {
            return (12, [0; 4]);
        }
        let Self { memory, canvas, model } = self;
        let mut registers = memory.registers;
        let lent = memory.canvas();
        let effects = &mut |effect| canvas.take(effect, lent, &mut registers);
        let fed = model.as_mut().expect("a session is open").feed(bytes, allowance as u64, effects);
        memory.registers = registers;
        numbered(fed)
    }

    fn finish(&mut self) -> (u64, [u64; 11]) {
        let Self { memory, canvas, model } = self;
        let mut registers = memory.registers;
        let lent = memory.canvas();
        let effects = &mut |effect| canvas.take(effect, lent, &mut registers);
        let finished = model.as_mut().expect("a session is open").finish(effects);
        memory.session[..SESSION].fill(0);
        if finished.is_ok() {
            memory.palette = lasting(registers);
        }
        numbered(finished)
    }

    fn read(&mut self, opening: &Opening, bytes: &[u8]) -> (u64, [u64; 13]) {
        let bounds = self.start(opening);
        let end = bytes.len() as u64;
        let (settings, place) = match values::part(bytes) {
            Ok(found) => found,
            Err(number) => return (number, [0, 0, 0, 0, 0, 0, 0, 0, 0, 0, 0, end, 0]),
        };
        let Self { memory, canvas, .. } = self;
        let mut registers = memory.registers;
        let lent = memory.canvas();
        let effects = &mut |effect| canvas.take(effect, lent, &mut registers);
        let mut model = Model::payload(bounds, settings, effects);
        let fed = model.feed(&bytes[place..], u64::MAX, effects);
        let finished = fed.and_then(|_| model.finish(effects));
        if finished.is_ok() {
            memory.palette = lasting(registers);
        }
        let (number, picture) = numbered(finished);
        let mut report = [0; 13];
        report[..11].copy_from_slice(&picture);
        report[11..].copy_from_slice(&[place as u64, end - place as u64]);
        (number, report)
    }

    fn copy(&mut self, [width, height]: [usize; 2], mut out: Vec<u8>) -> (u64, Vec<u8>) {
        if out.len() < 4 * width * height {
            return (14, out);
        }
        let stride = self.canvas.stride;
        let canvas = self.memory.canvas();
        for (row, to) in out.chunks_mut(4 * width).take(height).enumerate() {
            to.copy_from_slice(&canvas[4 * row * stride..][..4 * width]);
        }
        (0, out)
    }

    fn standard_palette(&mut self) -> Registers {
        let registers = SixelDecoder::new().registers();
        std::array::from_fn(|at| {
            u32::from_be_bytes([0, registers[4 * at], registers[4 * at + 1], registers[4 * at + 2]])
        })
    }

    fn memory(&mut self) -> &Memory {
        &self.memory
    }
}
