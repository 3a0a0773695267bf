use crate::{DcsSettings, Result, SixelDecoder, SixelError};

/// What P2 says of pixels that nothing was drawn on.
#[derive(Clone, Copy, Debug, Default, PartialEq, Eq)]
pub enum BackgroundMode {
    /// They have the colour that register 0 had at the start.
    Opaque,
    /// They are 0, 0, 0, 0. Only a P2 of 1 means this.
    #[default]
    Transparent,
}

impl BackgroundMode {
    /// What a P2 means.
    pub fn from_p2(p2: u16) -> Self {
        if p2 == 1 {
            Self::Transparent
        } else {
            Self::Opaque
        }
    }

    /// A P2 that means this.
    pub fn to_p2_value(self) -> u8 {
        u8::from(self.is_transparent())
    }

    /// Whether undrawn pixels are transparent.
    pub fn is_transparent(self) -> bool {
        self == Self::Transparent
    }
}

/// How tall a pixel is for its width.
#[derive(Clone, Copy, Debug, Default, PartialEq, Eq)]
pub enum PixelAspectRatio {
    /// Five times as tall as wide.
    Ratio5To1,
    /// Three times.
    Ratio3To1,
    /// Twice.
    Ratio2To1,
    /// As tall as wide.
    #[default]
    Square,
}

impl PixelAspectRatio {
    /// What a P1 means.
    pub fn from_p1(p1: u16) -> Self {
        match p1 {
            0 | 1 | 5 | 6 => Self::Ratio2To1,
            2 => Self::Ratio5To1,
            3 | 4 => Self::Ratio3To1,
            _ => Self::Square,
        }
    }

    /// A P1 that means this.
    pub fn to_p1_value(self) -> u8 {
        match self {
            Self::Ratio5To1 => 2,
            Self::Ratio3To1 => 3,
            Self::Ratio2To1 => 0,
            Self::Square => 9,
        }
    }

    /// The ratio's horizontal part, which is 1.
    pub fn pan(self) -> u16 {
        1
    }

    /// The ratio's vertical part.
    pub fn pad(self) -> u16 {
        match self {
            Self::Ratio5To1 => 5,
            Self::Ratio3To1 => 3,
            Self::Ratio2To1 => 2,
            Self::Square => 1,
        }
    }

    /// Width over height.
    pub fn as_f32(self) -> f32 {
        f32::from(self.pan()) / f32::from(self.pad())
    }

    /// Whether a pixel is as tall as wide.
    pub fn is_square(self) -> bool {
        self == Self::Square
    }
}

/// A picture in memory of its own, on the heap.
#[derive(Clone, Debug, PartialEq, Eq)]
pub struct SixelImage {
    /// Red, green, blue and alpha of each pixel, row by row, tightly packed.
    pub pixels: Vec<u8>,
    /// Width in pixels.
    pub width: usize,
    /// Height in pixels.
    pub height: usize,
    /// The raster's ratio where it has one, else P1's, else square.
    pub aspect_ratio: PixelAspectRatio,
    /// What P2 said.
    pub background_mode: BackgroundMode,
}

impl SixelImage {
    /// Reads a DCS sequence, wherever it stands in the bytes, with the standard palette and icy_sixel's limits.
    pub fn decode(data: &[u8]) -> Result<Self> {
        SixelDecoder::new().decode(data)
    }

    /// Reads a payload whose header was read by somebody else.
    pub fn decode_from_dcs(payload: &[u8], settings: DcsSettings) -> Result<Self> {
        SixelDecoder::new().decode_from_dcs(payload, settings)
    }

    /// The size on a screen with square pixels.
    pub fn corrected_dimensions(&self) -> (usize, usize) {
        (self.width, self.height * usize::from(self.aspect_ratio.pad()))
    }

    /// Width and height.
    pub fn dimensions(&self) -> (usize, usize) {
        (self.width, self.height)
    }

    /// Whether any pixel has an alpha below 128.
    pub fn has_transparency(&self) -> bool {
        self.pixels.chunks_exact(4).any(|pixel| pixel[3] < 128)
    }
}

impl std::str::FromStr for SixelImage {
    type Err = SixelError;

    fn from_str(text: &str) -> Result<Self> {
        Self::decode(text.as_bytes())
    }
}
