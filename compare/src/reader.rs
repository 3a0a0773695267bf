//! The reader's exported functions, whoever carries the calls: linked into this program, or in a servant of its own.
use crate::ffi;
pub use crate::ffi::Registers;

/// A session's numbers, and guard numbers behind them that nobody was lent.
pub const SESSION: usize = ffi::SESSION_NUMBERS;
pub type Guarded = [u64; SESSION + 16];

/// Guard bytes before and after the canvas that nobody was lent.
pub const GUARD: usize = 64;

/// A register's number: a colour below this, and this bit where it is marked.
pub const MARK: u32 = 1 << 24;
/// In a session this bit too, where its frame has defined the register. An opening drops it and what is above.
pub const FRAME: u32 = 2 * MARK;

/// The fill pattern: what every memory that a call has to write holds before it.
pub const UNWRITTEN: u64 = 0xa5a5_a5a5_a5a5_a5a5;

/// How a session is opened, or a whole input read. The canvas is the buffer without a guard on either side.
#[derive(Clone)]
pub struct Opening {
    pub framed: bool,
    pub limits: [usize; 4],
    pub stride: usize,
    pub p1: u32,
    pub p2: u32,
    pub buffer: Vec<u8>,
    pub palette: Registers,
}

/// Everything that was lent, as it stands.
#[derive(Clone)]
pub struct Memory {
    pub buffer: Vec<u8>,
    pub palette: Registers,
    pub session: Guarded,
    pub registers: Registers,
}

impl Memory {
    pub fn empty() -> Self {
        Self { buffer: vec![0; 2 * GUARD], palette: [0; 256], session: [UNWRITTEN; SESSION + 16], registers: [0; 256] }
    }

    pub fn of(opening: &Opening) -> Self {
        Self {
            buffer: opening.buffer.clone(),
            palette: opening.palette,
            session: [UNWRITTEN; SESSION + 16],
            registers: [UNWRITTEN as u32; 256],
        }
    }

    pub fn canvas(&mut self) -> &mut [u8] {
        let end = self.buffer.len() - GUARD;
        &mut self.buffer[GUARD..end]
    }
}

/// Numbers are refusals, 0 for none; reports are as the exported functions give them.
pub trait Reader {
    fn open(&mut self, opening: &Opening) -> u64;
    /// `short` bytes at the canvas's end are not lent.
    fn feed(&mut self, bytes: &[u8], allowance: usize, short: usize) -> (u64, [u64; 4]);
    fn finish(&mut self) -> (u64, [u64; 11]);
    fn read(&mut self, opening: &Opening, bytes: &[u8]) -> (u64, [u64; 13]);
    /// Copies a picture from the canvas to a buffer that holds `out`, and hands that buffer back.
    fn copy(&mut self, size: [usize; 2], out: Vec<u8>) -> (u64, Vec<u8>);
    fn standard_palette(&mut self) -> Registers;
    fn memory(&mut self) -> &Memory;
}

#[cfg(linked)]
pub use linked::Linked;

#[cfg(linked)]
mod linked {
    use super::*;

    /// The reader that this program is linked with.
    pub struct Linked {
        framed: bool,
        stride: usize,
        memory: Memory,
    }

    impl Default for Linked {
        fn default() -> Self {
            Self { framed: false, stride: 0, memory: Memory::empty() }
        }
    }

    impl Linked {
        /// The canvas's pointer and length, and the rest of the memory beside it.
        fn parts(&mut self) -> (*mut u8, usize, &mut Memory) {
            let canvas = self.memory.canvas();
            let (start, len) = (canvas.as_mut_ptr(), canvas.len());
            (start, len, &mut self.memory)
        }
    }

    // SAFETY, of every call below: each pointer is to memory of the lengths that the signature names, which lives through
    // the call, and no two overlap; the functions keep none of them.
    impl Reader for Linked {
        fn open(&mut self, opening: &Opening) -> u64 {
            self.memory = Memory::of(opening);
            (self.framed, self.stride) = (opening.framed, opening.stride);
            let ([w, h, r, m], stride) = (opening.limits, opening.stride);
            let (canvas, len, own) = self.parts();
            let (session, registers) = (own.session.as_mut_ptr().cast(), &mut own.registers);
            let (owner, p1, p2) = (&own.palette, opening.p1, opening.p2);
            unsafe {
                if opening.framed {
                    ffi::owlgantry_raw_dcs_open(w, h, r, m, stride, len, owner, session, registers)
                } else {
                    ffi::owlgantry_raw_payload_open(w, h, r, m, stride, p1, p2, canvas, len, owner, session, registers)
                }
            }
        }

        fn feed(&mut self, bytes: &[u8], allowance: usize, short: usize) -> (u64, [u64; 4]) {
            let mut report = [UNWRITTEN; 4];
            let call = if self.framed { ffi::owlgantry_raw_dcs_feed } else { ffi::owlgantry_raw_payload_feed };
            let (canvas, len, own) = self.parts();
            let (start, size) = (bytes.as_ptr(), bytes.len());
            let (session, registers) = (own.session.as_mut_ptr().cast(), &mut own.registers);
            let number = unsafe { call(session, registers, canvas, len - short, start, size, allowance, &mut report) };
            (number, report)
        }

        fn finish(&mut self) -> (u64, [u64; 11]) {
            let mut report = [UNWRITTEN; 11];
            let call = if self.framed { ffi::owlgantry_raw_dcs_finish } else { ffi::owlgantry_raw_payload_finish };
            let (canvas, len, own) = self.parts();
            let session = own.session.as_mut_ptr().cast();
            let number = unsafe { call(session, &own.registers, canvas, len, &mut own.palette, &mut report) };
            (number, report)
        }

        fn read(&mut self, opening: &Opening, bytes: &[u8]) -> (u64, [u64; 13]) {
            self.memory = Memory::of(opening);
            self.stride = opening.stride;
            let mut report = [UNWRITTEN; 13];
            let ([w, h, r, m], stride) = (opening.limits, opening.stride);
            let (canvas, len, own) = self.parts();
            let (start, size, owner) = (bytes.as_ptr(), bytes.len(), &mut own.palette);
            let number =
                unsafe { ffi::owlgantry_raw_read(w, h, r, m, stride, canvas, len, start, size, owner, &mut report) };
            (number, report)
        }

        fn copy(&mut self, [width, height]: [usize; 2], mut out: Vec<u8>) -> (u64, Vec<u8>) {
            let stride = self.stride;
            let (canvas, len, _) = self.parts();
            let number =
                unsafe { ffi::owlgantry_raw_copy(canvas, len, stride, width, height, out.as_mut_ptr(), out.len()) };
            (number, out)
        }

        fn standard_palette(&mut self) -> Registers {
            let mut out = [UNWRITTEN as u32; 256];
            unsafe { ffi::owlgantry_raw_standard_palette(&mut out) };
            out
        }

        fn memory(&mut self) -> &Memory {
            &self.memory
        }
    }
}
