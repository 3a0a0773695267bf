//! A picture as it is compared: its size, and its pixels without gaps between the rows.
use std::fmt;

#[derive(PartialEq)]
pub struct Picture {
    pub width: usize,
    pub height: usize,
    pub pixels: Vec<u8>,
}

impl fmt::Debug for Picture {
    /// Where two differ, millions of pixels tell nobody anything: the size and a sum have to do.
    fn fmt(&self, f: &mut fmt::Formatter<'_>) -> fmt::Result {
        let sum = self.pixels.iter().fold(0_u64, |sum, &byte| sum.wrapping_mul(31).wrapping_add(u64::from(byte)));
        write!(f, "{} x {} ({sum:x})", self.width, self.height)
    }
}
