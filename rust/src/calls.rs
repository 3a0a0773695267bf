//! The calls over the FFI and all unsafe code of this crate: slices and arrays are handed over as pointers and lengths.
//!
//! The reader keeps no pointer, stays within the lengths, and gives any content of a session a stated answer. So a call
//! is sound where every pointer is one of a reference that lives through the call, and is exclusive where it is written
//! to; the types of the functions below see to both.
use crate::ffi::{self, Numbers, Registers, Told};
use crate::Limits;
use std::alloc::{alloc_zeroed, Layout};
use std::mem::MaybeUninit;
use std::ptr::addr_of_mut;

/// A session's memory.
#[derive(Clone)]
pub struct Memory {
    numbers: Numbers,
    registers: Registers,
}

/// So many zeros, more than none, where memory for them can be had. Only the allocator knows which memory is zeros already:
/// a large canvas is not written to before the picture is.
pub fn zeros(length: usize) -> Option<Vec<u8>> {
    let layout = Layout::array::<u8>(length).ok().filter(|layout| layout.size() > 0)?;
    // SAFETY: the layout's size is not 0.
    let start = unsafe { alloc_zeroed(layout) };
    // SAFETY: the block is the vector's allocator's, is not null, and has just that layout; all its bytes are 0.
    (!start.is_null()).then(|| unsafe { Vec::from_raw_parts(start, length, length) })
}

pub fn standard_palette() -> Registers {
    let mut out = MaybeUninit::<Registers>::uninit();
    // SAFETY: `out` is 256 numbers and exclusive, and the call writes each of them.
    unsafe {
        ffi::owlgantry_raw_standard_palette(out.as_mut_ptr());
        out.assume_init()
    }
}

pub fn read(
    limits: Limits,
    stride: usize,
    canvas: &mut [u8],
    bytes: &[u8],
    palette: &mut Registers,
) -> (u64, [u64; 13]) {
    let Limits { width: w, height: h, repeats: r, pixels: m } = limits;
    let mut report = [0; 13];
    let (at, length) = (canvas.as_mut_ptr(), canvas.len());
    let (given, count) = (bytes.as_ptr(), bytes.len());
    // SAFETY: canvas and bytes have their slices' lengths, the palette 256 numbers and the report 13; all but bytes are exclusive.
    let answer = unsafe { ffi::owlgantry_raw_read(w, h, r, m, stride, at, length, given, count, palette, &mut report) };
    (answer, report)
}

pub fn copy(canvas: &[u8], stride: usize, width: usize, height: usize, out: &mut [u8]) -> u64 {
    let (at, length) = (canvas.as_ptr(), canvas.len());
    // SAFETY: both have their slices' lengths, and `out` is exclusive.
    unsafe { ffi::owlgantry_raw_copy(at, length, stride, width, height, out.as_mut_ptr(), out.len()) }
}

/// An opening's session, or its refusal's number. The call writes every number of the session where it is not refused, so that none
/// has to be written before.
fn opened(open: impl FnOnce(*mut Numbers, *mut Registers) -> u64) -> Result<Memory, u64> {
    let mut memory = MaybeUninit::<Memory>::uninit();
    let at = memory.as_mut_ptr();
    // SAFETY: the pointers are of fields of `memory`, which lives through the call; nothing is read of it.
    let (numbers, registers) = unsafe { (addr_of_mut!((*at).numbers), addr_of_mut!((*at).registers)) };
    match open(numbers, registers) {
        // SAFETY: an opening that answers 0 has written all 48 numbers and all 256 registers.
        0 => Ok(unsafe { memory.assume_init() }),
        answer => Err(answer),
    }
}

pub fn payload_open(
    limits: Limits,
    stride: usize,
    [p1, p2]: [u32; 2],
    canvas: &mut [u8],
    palette: &Registers,
) -> Result<Memory, u64> {
    let Limits { width: w, height: h, repeats: r, pixels: m } = limits;
    let (at, length) = (canvas.as_mut_ptr(), canvas.len());
    // SAFETY: the canvas has its slice's length, palette and registers 256 numbers, the session 48; all but the palette are exclusive.
    opened(|numbers, registers| unsafe {
        ffi::owlgantry_raw_payload_open(w, h, r, m, stride, p1, p2, at, length, palette, numbers, registers)
    })
}

pub fn dcs_open(limits: Limits, stride: usize, length: usize, palette: &Registers) -> Result<Memory, u64> {
    let Limits { width: w, height: h, repeats: r, pixels: m } = limits;
    // SAFETY: palette and registers have 256 numbers, the session 48; the latter two are exclusive.
    opened(|numbers, registers| unsafe {
        ffi::owlgantry_raw_dcs_open(w, h, r, m, stride, length, palette, numbers, registers)
    })
}

pub fn payload_feed(memory: &mut Memory, canvas: &mut [u8], bytes: &[u8], allowance: usize) -> (u64, [u64; 4]) {
    let mut report = [0; 4];
    let (numbers, registers) = (&mut memory.numbers, &mut memory.registers);
    let (at, length) = (canvas.as_mut_ptr(), canvas.len());
    let (given, count) = (bytes.as_ptr(), bytes.len());
    // SAFETY: the session has 48 numbers and 256 registers, canvas and bytes their slices' lengths, the report 4 numbers; all but
    // bytes are exclusive.
    let answer = unsafe {
        ffi::owlgantry_raw_payload_feed(numbers, registers, at, length, given, count, allowance, &mut report)
    };
    (answer, report)
}

pub fn dcs_feed(memory: &mut Memory, canvas: &mut [u8], bytes: &[u8], allowance: usize) -> (u64, [u64; 4]) {
    let mut report = [0; 4];
    let (numbers, registers) = (&mut memory.numbers, &mut memory.registers);
    let (at, length) = (canvas.as_mut_ptr(), canvas.len());
    let (given, count) = (bytes.as_ptr(), bytes.len());
    // SAFETY: as in `payload_feed`.
    let answer =
        unsafe { ffi::owlgantry_raw_dcs_feed(numbers, registers, at, length, given, count, allowance, &mut report) };
    (answer, report)
}

pub fn payload_finish(memory: &mut Memory, canvas: &mut [u8], palette: &mut Registers) -> (u64, [u64; 11]) {
    let mut report = [0; 11];
    let (numbers, registers) = (&mut memory.numbers, &memory.registers);
    let (at, length) = (canvas.as_mut_ptr(), canvas.len());
    // SAFETY: the session has 48 numbers and 256 registers, the canvas its slice's length, the palette 256 numbers and the report 11;
    // all but the registers are exclusive.
    let answer = unsafe { ffi::owlgantry_raw_payload_finish(numbers, registers, at, length, palette, &mut report) };
    (answer, report)
}

pub fn dcs_finish(memory: &mut Memory, canvas: &mut [u8], palette: &mut Registers) -> (u64, [u64; 11]) {
    let mut report = [0; 11];
    let (numbers, registers) = (&mut memory.numbers, &memory.registers);
    let (at, length) = (canvas.as_mut_ptr(), canvas.len());
    // SAFETY: as in `payload_finish`.
    let answer = unsafe { ffi::owlgantry_raw_dcs_finish(numbers, registers, at, length, palette, &mut report) };
    (answer, report)
}

pub fn payload_explain(memory: &Memory, length: usize, bytes: &[u8], allowance: usize) -> Told {
    let mut told = [0; 7];
    let (numbers, registers) = (&memory.numbers, &memory.registers);
    let (given, count) = (bytes.as_ptr(), bytes.len());
    // SAFETY: the session has 48 numbers and 256 registers, the bytes their slice's length, and `told` 7 numbers; it is exclusive.
    unsafe { ffi::owlgantry_raw_payload_explain(numbers, registers, length, given, count, allowance, &mut told) };
    told
}

pub fn dcs_explain(memory: &Memory, length: usize, bytes: &[u8], allowance: usize) -> Told {
    let mut told = [0; 7];
    let (numbers, registers) = (&memory.numbers, &memory.registers);
    let (given, count) = (bytes.as_ptr(), bytes.len());
    // SAFETY: as in `payload_explain`.
    unsafe { ffi::owlgantry_raw_dcs_explain(numbers, registers, length, given, count, allowance, &mut told) };
    told
}

pub fn payload_explain_finish(memory: &Memory, length: usize) -> Told {
    let mut told = [0; 7];
    // SAFETY: the session has 48 numbers and 256 registers, and `told` 7 numbers; it is exclusive.
    unsafe { ffi::owlgantry_raw_payload_explain_finish(&memory.numbers, &memory.registers, length, &mut told) };
    told
}

pub fn dcs_explain_finish(memory: &Memory, length: usize) -> Told {
    let mut told = [0; 7];
    // SAFETY: as in `payload_explain_finish`.
    unsafe { ffi::owlgantry_raw_dcs_explain_finish(&memory.numbers, &memory.registers, length, &mut told) };
    told
}

pub fn read_explain(limits: Limits, stride: usize, length: usize, palette: &Registers, bytes: &[u8]) -> Told {
    let Limits { width: w, height: h, repeats: r, pixels: m } = limits;
    let mut told = [0; 7];
    let (given, count) = (bytes.as_ptr(), bytes.len());
    // SAFETY: the palette has 256 numbers, the bytes their slice's length, and `told` 7 numbers; it is exclusive.
    unsafe { ffi::owlgantry_raw_read_explain(w, h, r, m, stride, length, palette, given, count, &mut told) };
    told
}

/// How many bytes of the line were written.
pub fn words(told: &Told, out: &mut [u8]) -> usize {
    // SAFETY: `told` is 7 numbers; `out` has its slice's length and is exclusive.
    let written = unsafe { ffi::owlgantry_raw_words(told, out.as_mut_ptr(), out.len()) };
    written as usize
}
