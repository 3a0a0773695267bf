//! icy_sixel 0.7.0's decoding half under a crate root of our own.
//!
//! The decoder, its DCS adapter and the image type are the published files, unchanged; this file stands in for the
//! published lib.rs. What it adapts: the error type has no derive, there is no encoder, and a build can set the limits.
//! `peek.rs` stands beside the decoder, in its module, and looks at what is private there.
#![allow(dead_code)]

pub mod adler;
pub mod colours;
pub mod grammar;
pub mod list;
pub mod random;
pub mod record;
pub mod run;
pub mod text;

pub mod decoder {
    include!(concat!(env!("OUT_DIR"), "/decoder.rs"));
    include!("peek.rs");
}

include!(concat!(env!("OUT_DIR"), "/modules.rs"));
include!(concat!(env!("OUT_DIR"), "/limits.rs"));
pub(crate) const SIXEL_PALETTE_MAX: usize = 256;
pub(crate) const SIXEL_CELL_HEIGHT: usize = 6;

pub use decoder::{DcsSettings, SixelDcsFeedStatus, SixelDecoder, SixelFeedStatus};
pub use sixel_image::{BackgroundMode, PixelAspectRatio, SixelImage};

/// The limits of this build: width, height, repeat, pixels.
pub const LIMITS: [usize; 4] = [SIXEL_WIDTH_LIMIT, SIXEL_HEIGHT_LIMIT, SIXEL_REPEAT_MAX, SIXEL_MAX_PIXELS];

#[derive(Debug)]
pub enum SixelError {
    InvalidDimensions { width: usize, height: usize },
    BufferSizeMismatch { expected: usize, actual: usize },
    InvalidData(String),
    NoSixelData,
    Quantization(String),
    IntegerOverflow,
}

impl std::fmt::Display for SixelError {
    fn fmt(&self, f: &mut std::fmt::Formatter<'_>) -> std::fmt::Result {
        write!(f, "{self:?}")
    }
}

pub type Result<T> = core::result::Result<T, SixelError>;

/// In the encoder's place: the image type names these two and no reading reaches them.
pub mod encoder {
    #[derive(Default)]
    pub struct EncodeOptions;

    pub(crate) fn sixel_encode_impl(
        _pixels: &[u8],
        _width: usize,
        _height: usize,
        _options: &EncodeOptions,
        _ratio: crate::PixelAspectRatio,
        _background: crate::BackgroundMode,
    ) -> crate::Result<String> {
        Err(crate::SixelError::Quantization("the oracle has no encoder".into()))
    }
}
