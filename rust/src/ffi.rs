//! The reader's exported functions, declared once for Rust: this crate, the comparison and the benchmark take them from here.
//! `c/owlgantry.h` says what each does. A slice is handed over as a pointer and a length.
#![allow(dead_code)] // nobody calls them all

pub const SESSION_NUMBERS: usize = 48;
pub const REGISTERS: usize = 256;

/// A session's numbers; all zeros are a failed one.
pub type Numbers = [u64; SESSION_NUMBERS];
/// Registers' numbers: a packed colour, and 2^24 more where the register is marked.
pub type Registers = [u32; REGISTERS];
/// What is told of a refusal: its number; 1 where there is a place, else 0; the place; what ran short, or 0; how much was needed;
/// 1 for more than that, else 0; how much is allowed.
pub type Told = [u64; 7];
/// No line of `owlgantry_raw_words` has so many bytes.
pub const LINE: usize = 128;

extern "C" {
    pub fn owlgantry_raw_standard_palette(out: *mut Registers);
    pub fn owlgantry_raw_read(
        width: usize,
        height: usize,
        repeats: usize,
        pixels: usize,
        stride: usize,
        canvas: *mut u8,
        canvas_length: usize,
        bytes: *const u8,
        bytes_length: usize,
        palette: *mut Registers,
        report: *mut [u64; 13],
    ) -> u64;
    pub fn owlgantry_raw_copy(
        canvas: *const u8,
        canvas_length: usize,
        stride: usize,
        width: usize,
        height: usize,
        out: *mut u8,
        out_length: usize,
    ) -> u64;
    pub fn owlgantry_raw_payload_open(
        width: usize,
        height: usize,
        repeats: usize,
        pixels: usize,
        stride: usize,
        p1: u32,
        p2: u32,
        canvas: *mut u8,
        canvas_length: usize,
        palette: *const Registers,
        session: *mut Numbers,
        registers: *mut Registers,
    ) -> u64;
    pub fn owlgantry_raw_payload_feed(
        session: *mut Numbers,
        registers: *mut Registers,
        canvas: *mut u8,
        canvas_length: usize,
        bytes: *const u8,
        bytes_length: usize,
        allowance: usize,
        report: *mut [u64; 4],
    ) -> u64;
    pub fn owlgantry_raw_payload_finish(
        session: *mut Numbers,
        registers: *const Registers,
        canvas: *mut u8,
        canvas_length: usize,
        palette: *mut Registers,
        report: *mut [u64; 11],
    ) -> u64;
    pub fn owlgantry_raw_dcs_open(
        width: usize,
        height: usize,
        repeats: usize,
        pixels: usize,
        stride: usize,
        canvas_length: usize,
        palette: *const Registers,
        session: *mut Numbers,
        registers: *mut Registers,
    ) -> u64;
    pub fn owlgantry_raw_dcs_feed(
        session: *mut Numbers,
        registers: *mut Registers,
        canvas: *mut u8,
        canvas_length: usize,
        bytes: *const u8,
        bytes_length: usize,
        allowance: usize,
        report: *mut [u64; 4],
    ) -> u64;
    pub fn owlgantry_raw_dcs_finish(
        session: *mut Numbers,
        registers: *const Registers,
        canvas: *mut u8,
        canvas_length: usize,
        palette: *mut Registers,
        report: *mut [u64; 11],
    ) -> u64;
    pub fn owlgantry_raw_payload_explain(
        session: *const Numbers,
        registers: *const Registers,
        canvas_length: usize,
        bytes: *const u8,
        bytes_length: usize,
        allowance: usize,
        telling: *mut Told,
    ) -> u64;
    pub fn owlgantry_raw_payload_explain_finish(
        session: *const Numbers,
        registers: *const Registers,
        canvas_length: usize,
        telling: *mut Told,
    ) -> u64;
    pub fn owlgantry_raw_dcs_explain(
        session: *const Numbers,
        registers: *const Registers,
        canvas_length: usize,
        bytes: *const u8,
        bytes_length: usize,
        allowance: usize,
        telling: *mut Told,
    ) -> u64;
    pub fn owlgantry_raw_dcs_explain_finish(
        session: *const Numbers,
        registers: *const Registers,
        canvas_length: usize,
        telling: *mut Told,
    ) -> u64;
    pub fn owlgantry_raw_read_explain(
        width: usize,
        height: usize,
        repeats: usize,
        pixels: usize,
        stride: usize,
        canvas_length: usize,
        palette: *const Registers,
        bytes: *const u8,
        bytes_length: usize,
        telling: *mut Told,
    ) -> u64;
    pub fn owlgantry_raw_words(telling: *const Told, out: *mut u8, out_length: usize) -> u64;
}
