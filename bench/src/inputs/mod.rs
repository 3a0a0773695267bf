//! What is timed: payloads of several kinds of each sort, made from a seed.
pub mod commands;
pub mod encode;
pub mod maps;
pub mod photos;
pub mod small;

/// A name that stays, so that figures of different days can be compared, and the bytes.
pub struct Input {
    pub name: String,
    pub payload: Vec<u8>,
}

impl Input {
    pub fn new(name: impl Into<String>, payload: Vec<u8>) -> Self {
        Self { name: name.into(), payload }
    }
}

/// Whether a payload says its size before its sixels. A picture that does not can only grow as it is read.
#[derive(Clone, Copy, PartialEq)]
pub enum Raster {
    Given,
    Missing,
}

impl Raster {
    fn text(self, width: usize, height: usize) -> String {
        match self {
            Self::Given => format!("\"1;1;{width};{height}"),
            Self::Missing => String::new(),
        }
    }
}

/// Introducer, header without parameters, and end: libsixel and whole sequences need them.
pub fn framed(payload: &[u8]) -> Vec<u8> {
    [b"\x1BPq", payload, b"\x1B\\"].concat()
}
