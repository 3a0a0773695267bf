//! The proved reader's exported functions on a canvas that is lent, called as a program in C calls them.
use crate::canvas::Canvas;
use crate::ffi::{self, Registers};
use crate::picture::Picture;
use crate::timing::sixbench_decode;
use owlgantry::Limits;

/// The house's largest picture, for which the lent canvas has room.
pub const STRIDE: usize = 1_024;
pub const ROWS: usize = 768;

/// Fills a canvas before a check: no pixel has such an alpha, only 255 or 0.
pub const UNREAD: u8 = 0xab;

/// Width and height.
pub type Size = (usize, usize);

pub struct Lent {
    pub limits: Limits,
    pub stride: usize,
    pub canvas: Canvas,
}

/// Each picture starts from it, as the Rust's decoder does when it is made.
pub fn standard_palette() -> Registers {
    let mut palette = [0; ffi::REGISTERS];
    // SAFETY: the palette is 256 numbers and exclusive.
    unsafe { ffi::owlgantry_raw_standard_palette(&mut palette) };
    palette
}

/// A length of 0 stands for all at once, as it does in `sixbench_decode`.
pub fn pieces(bytes: &[u8], length: usize) -> std::slice::Chunks<'_, u8> {
    bytes.chunks(if length == 0 { bytes.len() } else { length })
}

impl Lent {
    pub fn new(limits: Limits, stride: usize, rows: usize) -> Self {
        Self { limits, stride, canvas: Canvas::new(4 * stride * rows) }
    }

    pub fn house() -> Self {
        Self::new(Limits::HOUSE, STRIDE, ROWS)
    }

    /// What a reading leaves on a canvas that shows nothing of the readings before it.
    pub fn picture(&mut self, read: impl FnOnce(&mut Self) -> Size) -> Picture {
        self.canvas.fill(UNREAD);
        let (width, height) = read(self);
        let rows = self.canvas.chunks(4 * self.stride).take(height);
        Picture { width, height, pixels: rows.flat_map(|row| &row[..4 * width]).copied().collect() }
    }

    /// A payload through `sixbench_decode`, which knows the house's limits by itself.
    pub fn decode(&mut self, payload: &[u8], piece: usize) -> Size {
        let (canvas, length) = (self.canvas.as_mut_ptr(), self.canvas.len());
        // SAFETY: canvas and payload have their slices' lengths, and the canvas is exclusive.
        let answer = unsafe { sixbench_decode(canvas, length, self.stride, payload.as_ptr(), payload.len(), piece) };
        assert!(answer >= 1 << 32, "refused {answer}");
        ((answer >> 32) as usize, (answer & 0xffff_ffff) as usize)
    }

    /// A sequence all at once.
    pub fn read(&mut self, sequence: &[u8]) -> Size {
        let Limits { width: w, height: h, repeats: r, pixels: m } = self.limits;
        let (canvas, length) = (self.canvas.as_mut_ptr(), self.canvas.len());
        let (bytes, count) = (sequence.as_ptr(), sequence.len());
        let (mut palette, mut report) = (standard_palette(), [0; 13]);
        let (stride, registers, numbers) = (self.stride, &mut palette, &mut report);
        // SAFETY: canvas and bytes have their slices' lengths, palette and report those of their types; all but the bytes are
        // exclusive.
        let answer =
            unsafe { ffi::owlgantry_raw_read(w, h, r, m, stride, canvas, length, bytes, count, registers, numbers) };
        assert_eq!(answer, 0, "refused");
        (report[0] as usize, report[1] as usize)
    }
}
