//! Kinds of bytes, the numbers of commands, and the header of a DCS sequence, by docs/RULES.md, sections 2 and 7.

/// P1 and P2, each at most 65,535 or none.
pub type Settings = [Option<u16>; 2];

const LARGEST_NUMBER: u64 = 2_147_483_647;

/// The numbers of a colour, a raster or a header.
pub struct Values {
    places: usize,
    stored: Vec<u64>,
    current: u64,
    begun: bool,
}

impl Values {
    pub fn new(places: usize) -> Self {
        Self { places, stored: Vec::new(), current: 0, begun: false }
    }

    /// Whether the byte is part of the numbers.
    pub fn takes(&mut self, byte: u8) -> bool {
        match byte {
            b'0'..=b'9' => self.current = (self.current * 10 + u64::from(byte - b'0')).min(LARGEST_NUMBER),
            b';' => self.store(),
            _ => return false,
        }
        self.begun = true;
        true
    }

    fn store(&mut self) {
        if self.stored.len() < self.places {
            self.stored.push(self.current);
        }
        self.current = 0;
    }

    pub fn all(mut self) -> Vec<u64> {
        if self.begun {
            self.store();
        }
        self.stored
    }
}

/// The settings and the place of the payload that reading all at once finds, or 2, 3 or 8.
pub fn part(bytes: &[u8]) -> Result<(Settings, usize), u64> {
    let found = (0..bytes.len()).find_map(|at| match bytes[at..] {
        [0x90, ..] => Some(at + 1),
        [0x1b, b'P', ..] => Some(at + 2),
        _ => None,
    });
    let Some(start) = found else { return Ok(([None; 2], 0)) };
    let mut values = Values::new(3);
    for (at, &byte) in bytes.iter().enumerate().skip(start) {
        if let Some(settings) = header_byte(&mut values, byte)? {
            return Ok((settings, at + 1));
        }
    }
    Err(8)
}

/// The settings where the byte closes the header.
pub fn header_byte(values: &mut Values, byte: u8) -> Result<Option<Settings>, u64> {
    if skipped(byte) || values.takes(byte) {
        return Ok(None);
    }
    match byte {
        b'q' => {
            let all = std::mem::replace(values, Values::new(3)).all();
            let setting = |place: usize| all.get(place).map(|&value| value.min(65_535) as u16);
            Ok(Some([setting(0), setting(1)]))
        }
        _ if ends(byte) => Err(2),
        _ => Err(3),
    }
}

pub fn skipped(byte: u8) -> bool {
    matches!(byte, 0x00..=0x17 | 0x19 | 0x1c..=0x1f | 0x7f)
}

pub fn ends(byte: u8) -> bool {
    matches!(byte, 0x18 | 0x1a | 0x1b | 0x80..=0x9f)
}
