//! The rules of reading (docs/RULES.md), without pixels and colours: what each call has to answer, and the ink of every draw.
//!
//! Written from the document and not from either reader, so that calls, stops, ink, extent, the registers that are
//! defined, the declared size and the definitions with a held value are counted by a third party.
use crate::values::{ends, header_byte, skipped, Settings, Values};

/// What a session is opened with: W, H, R, M, and the canvas's stride and rows.
#[derive(Clone, Copy)]
pub struct Bounds {
    pub limits: [u64; 4],
    pub stride: u64,
    pub rows: u64,
}

/// What reading does beyond counting; the tests' stand-in paints by it.
pub enum Effect {
    Begin { transparent: bool },
    Area { width: u64, height: u64 },
    Stroke { column: u64, row: u64, repeat: u64, bits: u8 },
    Colour { values: Vec<u64> },
}

pub type Effects<'a> = &'a mut dyn FnMut(Effect);

/// A call's report: how, bytes consumed, ink, the byte of an end.
pub type Fed = [u64; 4];

/// One for each register.
pub type Marks = [bool; 256];

pub const ALL_READ: u64 = 0;
pub const STOPPED: u64 = 1;
/// A payload session's end; of a DCS session, that it is complete.
pub const ENDED: u64 = 2;
const CANCELLED: u64 = 3;
const INTERRUPTED: u64 = 4;

enum Command {
    Nothing,
    Repeat(u128),
    Colour(Values),
    Raster(Values),
}

impl Command {
    fn takes(&mut self, byte: u8) -> bool {
        match self {
            Command::Nothing => false,
            Command::Repeat(number) => {
                if byte.is_ascii_digit() {
                    *number = number.saturating_mul(10).saturating_add(u128::from(byte - b'0'));
                }
                byte.is_ascii_digit()
            }
            Command::Colour(values) | Command::Raster(values) => values.takes(byte),
        }
    }
}

enum Phase {
    Start,
    Escape,
    Header(Values),
    Payload,
    /// After the 1B that ended a payload.
    Ending,
    End(u64, u8),
    Failed,
}

pub struct Model {
    bounds: Bounds,
    framed: bool,
    phase: Phase,
    settings: Settings,
    command: Command,
    repeat: u64,
    column: u64,
    row: u64,
    /// The visible area; 0 x 0 before any payload.
    pub area: [u64; 2],
    /// One past the last painted column and row; 0 x 0 before the first ink.
    extent: [u64; 2],
    ratio: Option<u64>,
    kept: [u64; 2],
    /// The registers that a colour command has defined, in this frame.
    pub defined: Marks,
    /// The definitions that had a value above 100.
    held: u64,
    /// The ink of all draws, those of a refused call too.
    pub ink: u128,
}

impl Model {
    pub fn payload(bounds: Bounds, settings: Settings, effects: Effects) -> Self {
        let mut model = Self::dcs(bounds);
        model.framed = false;
        model.begin(settings, effects);
        model
    }

    pub fn dcs(bounds: Bounds) -> Self {
        Self {
            bounds,
            framed: true,
            phase: Phase::Start,
            settings: [None; 2],
            command: Command::Nothing,
            repeat: 1,
            column: 0,
            row: 0,
            area: [0, 0],
            extent: [0, 0],
            ratio: None,
            kept: [0, 0],
            defined: [false; 256],
            held: 0,
            ink: 0,
        }
    }

    fn begin(&mut self, settings: Settings, effects: Effects) {
        self.phase = Phase::Payload;
        self.settings = settings;
        self.area = [1, 1];
        effects(Effect::Begin { transparent: settings[1] == Some(1) });
    }

    /// One call. A refusal by 1 to 7 fails the session.
    pub fn feed(&mut self, bytes: &[u8], allowance: u64, effects: Effects) -> Result<Fed, u64> {
        if matches!(self.phase, Phase::Failed) {
            return Err(9);
        }
        if allowance < 6 * self.bounds.limits[0] {
            return Err(13);
        }
        let fed = self.read(bytes, allowance, effects);
        if fed.is_err() {
            self.phase = Phase::Failed;
        }
        fed
    }

    fn read(&mut self, bytes: &[u8], allowance: u64, effects: Effects) -> Result<Fed, u64> {
        let before = self.ink;
        let mut at = 0;
        let mut how = ALL_READ;
        while at < bytes.len() && how == ALL_READ && !matches!(self.phase, Phase::End(..)) {
            let left = allowance - (self.ink - before) as u64;
            match self.byte(bytes[at], left, effects)? {
                Step::Read => at += 1,
                Step::Unread => {}
                Step::Stop => how = STOPPED,
            }
        }
        let (how, end) = match self.phase {
            Phase::End(how, byte) => (how, byte),
            _ => (how, 0),
        };
        // Whoever is complete has no byte to name.
        let end = if self.framed && how == ENDED { 0 } else { end };
        Ok([how, at as u64, (self.ink - before) as u64, u64::from(end)])
    }

    fn byte(&mut self, byte: u8, left: u64, effects: Effects) -> Result<Step, u64> {
        match &mut self.phase {
            Phase::Start => {
                self.phase = match byte {
                    0x1b => Phase::Escape,
                    0x90 => Phase::Header(Values::new(3)),
                    _ => return Err(1),
                };
            }
            Phase::Escape if byte != b'P' => return Err(1),
            Phase::Escape => self.phase = Phase::Header(Values::new(3)),
            Phase::Header(values) => {
                if let Some(settings) = header_byte(values, byte)? {
                    self.begin(settings, effects);
                }
            }
            Phase::Payload => return self.payload_byte(byte, left, effects),
            Phase::Ending if byte == b'\\' => self.phase = Phase::End(ENDED, byte),
            Phase::Ending => {
                self.phase = Phase::End(INTERRUPTED, 0x1b);
                return Ok(Step::Unread);
            }
            Phase::End(..) | Phase::Failed => unreachable!("no byte is read after an end"),
        }
        Ok(Step::Read)
    }

    fn payload_byte(&mut self, byte: u8, left: u64, effects: Effects) -> Result<Step, u64> {
        if skipped(byte) || self.command.takes(byte) {
            return Ok(Step::Read);
        }
        self.end_command(effects)?;
        match byte {
            0x3f..=0x7e => return self.sixel(byte - 63, left, effects),
            b'$' => self.column = 0,
            b'-' => {
                self.column = 0;
                self.row += 6;
            }
            b'!' => self.command = Command::Repeat(0),
            b'#' => self.command = Command::Colour(Values::new(5)),
            b'"' => self.command = Command::Raster(Values::new(4)),
            _ if ends(byte) => return Ok(self.end(byte)),
            _ => {}
        }
        Ok(Step::Read)
    }

    fn end(&mut self, byte: u8) -> Step {
        let (phase, step) = match byte {
            _ if !self.framed => (Phase::End(ENDED, byte), Step::Unread),
            0x9c => (Phase::End(ENDED, byte), Step::Read),
            0x18 | 0x1a => (Phase::End(CANCELLED, byte), Step::Read),
            0x1b => (Phase::Ending, Step::Read),
            _ => (Phase::End(INTERRUPTED, byte), Step::Unread),
        };
        self.phase = phase;
        step
    }

    fn sixel(&mut self, bits: u8, left: u64, effects: Effects) -> Result<Step, u64> {
        let needs = [self.column + self.repeat, self.row + 6];
        let area = self.judged(needs)?;
        let ink = self.repeat * u64::from(bits.count_ones());
        if ink > left {
            return Ok(Step::Stop);
        }
        self.grow(area, effects);
        effects(Effect::Stroke { column: self.column, row: self.row, repeat: self.repeat, bits });
        // A sixel without a set bit is blank and paints nothing, however far it makes the picture grow.
        if bits != 0 {
            let lowest = u64::from(bits.ilog2());
            self.extent = [self.extent[0].max(needs[0]), self.extent[1].max(self.row + lowest + 1)];
        }
        self.ink += u128::from(ink);
        self.column = needs[0];
        self.repeat = 1;
        Ok(Step::Read)
    }

    /// The area that a size brings about, or 5, 6 or 7.
    fn judged(&self, size: [u64; 2]) -> Result<[u64; 2], u64> {
        let [width, height, _, pixels] = self.bounds.limits;
        if size[0] > width || size[1] > height {
            return Err(5);
        }
        let area = [size[0].max(self.area[0]), size[1].max(self.area[1])];
        if area[0] * area[1] > pixels {
            return Err(6);
        }
        if area[0] > self.bounds.stride || area[1] > self.bounds.rows {
            return Err(7);
        }
        Ok(area)
    }

    fn grow(&mut self, area: [u64; 2], effects: Effects) {
        if area != self.area {
            self.area = area;
            effects(Effect::Area { width: area[0], height: area[1] });
        }
    }

    fn end_command(&mut self, effects: Effects) -> Result<(), u64> {
        match std::mem::replace(&mut self.command, Command::Nothing) {
            Command::Nothing => {}
            Command::Repeat(number) if number > u128::from(self.bounds.limits[2]) => return Err(4),
            Command::Repeat(number) => self.repeat = (number as u64).max(1),
            Command::Colour(values) => {
                let values = values.all();
                if let [register, space @ (1 | 2), first, second, third] = values[..] {
                    self.defined[register.min(255) as usize] = true;
                    // Of HLS the first is a hue, and any hue is within.
                    let largest = if space == 1 { second.max(third) } else { first.max(second).max(third) };
                    self.held += u64::from(largest > 100);
                }
                effects(Effect::Colour { values });
            }
            Command::Raster(values) => self.raster(&values.all(), effects)?,
        }
        Ok(())
    }

    fn raster(&mut self, values: &[u64], effects: Effects) -> Result<(), u64> {
        if let [vertical, horizontal, ..] = values {
            let (vertical, horizontal) = (vertical.max(&1), horizontal.max(&1));
            let quotient = vertical / horizontal;
            let counts = vertical % horizontal == 0 && [1, 2, 3, 5].contains(&quotient);
            self.ratio = counts.then_some(quotient);
        }
        for (kept, &value) in self.kept.iter_mut().zip(values.iter().skip(2)) {
            if value > 0 {
                *kept = value;
            }
        }
        if self.kept != [0, 0] {
            let area = self.judged(self.kept.map(|side| side.max(1)))?;
            self.grow(area, effects);
        }
        Ok(())
    }

    /// The eleven numbers of a finish.
    pub fn finish(&mut self, effects: Effects) -> Result<[u64; 11], u64> {
        match self.phase {
            Phase::Failed => return Err(9),
            Phase::End(..) => {}
            _ if self.framed => return Err(8),
            _ => {}
        }
        self.end_command(effects)?;
        let [kind, number] = match (self.ratio, self.settings[0]) {
            (Some(number), _) => [2, number],
            (None, Some(number)) => [1, u64::from(number)],
            (None, None) => [0, 0],
        };
        let transparent = u64::from(self.settings[1] == Some(1));
        let defined = self.defined.iter().filter(|&&defined| defined).count() as u64;
        let ([width, height], [right, bottom], [columns, rows]) = (self.area, self.extent, self.kept);
        Ok([width, height, right, bottom, kind, number, transparent, defined, columns, rows, self.held])
    }
}

enum Step {
    Read,
    Unread,
    Stop,
}
