//! A SIXEL reader that is proved, under the names of icy_sixel 0.7.0, whose decoding half it was ported from.
//!
//! Two ways to use it:
//!
//! - [`SixelDecoder`], its two streaming decoders and [`SixelImage`] are what a user of icy_sixel knows. They allocate
//!   a canvas for the picture; the page of [`SixelDecoder`] says how much. There is no encoder.
//! - [`PayloadSession`], [`DcsSession`], [`read`] and [`copy`] draw on a canvas that the caller lends, tell the ink, stop
//!   at an allowance, and allocate nothing.
//!
//! Both answer a refusal with the number that [`Refusal`] lists, and [`Telling`] says where and why, in words too. What the reader answers and paints is proved; this crate
//! around it is plain Rust and tested. Its unsafe code is one module: FFI calls, where slices become pointers and lengths,
//! and the zeros of a new canvas.
//!
//! ```
//! let mut decoder = owlgantry::SixelDecoder::new();
//! let image = decoder.decode(b"\x1bPq#1;2;100;0;0!2B\x1b\\")?;
//! assert_eq!((image.width, image.height), (2, 6));
//! assert_eq!(image.pixels[..4], [255, 0, 0, 255]);
//! # Ok::<(), owlgantry::SixelError>(())
//! ```
#![deny(unsafe_code)]
#![warn(missing_docs)]

#[allow(unsafe_code)]
mod calls;
mod decoder;
mod error;
mod explain;
mod ffi;
mod frames;
mod image;
mod limits;
mod look;
mod palette;
mod room;
mod session;
mod settings;
mod stream;
mod telling;

pub use decoder::SixelDecoder;
pub use error::{Refusal, Result, SixelError};
pub use frames::{
    SixelDcsFeedResult, SixelDcsFeedStatus, SixelDcsStreamDecoder, SixelFeedResult, SixelFeedStatus, SixelStreamDecoder,
};
pub use image::{BackgroundMode, PixelAspectRatio, SixelImage};
pub use limits::Limits;
pub use palette::Palette;
pub use session::{
    copy, explain_read, read, DcsSession, DcsStatus, Fed, PayloadSession, PayloadStatus, Picture, Ratio, Reading,
};
pub use settings::DcsSettings;
pub use telling::{Need, Telling, Thing};
