//! The exports' sessions in the caller's memory: opened, fed and finished. Those of a payload and those of a whole sequence are
//! fed and finished alike.
use crate::exports::{pieces, standard_palette, Lent, Size};
use crate::ffi::{self, Numbers, Registers};
use owlgantry::Limits;

/// No feed stops for ink: whoever wants stops pays for them with calls. `sixbench_decode` has the smallest allowance.
const ALLOWANCE: usize = usize::MAX;
/// For a payload whose header had no parameters.
const NO_PARAMETER: u32 = u32::MAX;

type Feed =
    unsafe extern "C" fn(*mut Numbers, *mut Registers, *mut u8, usize, *const u8, usize, usize, *mut [u64; 4]) -> u64;

type Finish =
    unsafe extern "C" fn(*mut Numbers, *const Registers, *mut u8, usize, *mut Registers, *mut [u64; 11]) -> u64;

struct Session {
    numbers: Numbers,
    registers: Registers,
    feed: Feed,
    finish: Finish,
}

impl Session {
    const NUMBERS: Numbers = [0; ffi::SESSION_NUMBERS];
    const REGISTERS: Registers = [0; ffi::REGISTERS];

    fn of_payload(lent: &mut Lent, palette: &Registers) -> Self {
        let Limits { width: w, height: h, repeats: r, pixels: m } = lent.limits;
        let (stride, canvas, length) = (lent.stride, lent.canvas.as_mut_ptr(), lent.canvas.len());
        let (mut numbers, mut registers) = (Self::NUMBERS, Self::REGISTERS);
        let (session, table) = (&mut numbers, &mut registers);
        let [p1, p2] = [NO_PARAMETER; 2];
        // SAFETY: the canvas has its slice's length, palette and session those of their types; all but the palette are exclusive.
        let answer = unsafe {
            ffi::owlgantry_raw_payload_open(w, h, r, m, stride, p1, p2, canvas, length, palette, session, table)
        };
        assert_eq!(answer, 0, "the session opens");
        let (feed, finish) = (ffi::owlgantry_raw_payload_feed, ffi::owlgantry_raw_payload_finish);
        Self { numbers, registers, feed, finish }
    }

    fn of_sequence(lent: &Lent, palette: &Registers) -> Self {
        let Limits { width: w, height: h, repeats: r, pixels: m } = lent.limits;
        let (stride, length) = (lent.stride, lent.canvas.len());
        let (mut numbers, mut registers) = (Self::NUMBERS, Self::REGISTERS);
        let (session, table) = (&mut numbers, &mut registers);
        // SAFETY: palette and session have the lengths of their types, and the session is exclusive.
        let answer = unsafe { ffi::owlgantry_raw_dcs_open(w, h, r, m, stride, length, palette, session, table) };
        assert_eq!(answer, 0, "the session opens");
        let (feed, finish) = (ffi::owlgantry_raw_dcs_feed, ffi::owlgantry_raw_dcs_finish);
        Self { numbers, registers, feed, finish }
    }

    fn feed(&mut self, canvas: &mut [u8], bytes: &[u8]) {
        let (given, count, mut report) = (bytes.as_ptr(), bytes.len(), [0; 4]);
        let (numbers, registers) = (&mut self.numbers, &mut self.registers);
        // SAFETY: canvas and bytes have their slices' lengths, session and report those of their types; all but the bytes are
        // exclusive.
        let answer = unsafe {
            (self.feed)(numbers, registers, canvas.as_mut_ptr(), canvas.len(), given, count, ALLOWANCE, &mut report)
        };
        assert_eq!((answer, report[1] as usize), (0, count), "a piece is read whole");
    }

    fn finish(mut self, canvas: &mut [u8], mut palette: Registers) -> Size {
        let (numbers, registers, mut report) = (&mut self.numbers, &self.registers, [0; 11]);
        // SAFETY: as in `feed`; the registers are only read.
        let answer =
            unsafe { (self.finish)(numbers, registers, canvas.as_mut_ptr(), canvas.len(), &mut palette, &mut report) };
        assert_eq!(answer, 0, "refused");
        (report[0] as usize, report[1] as usize)
    }
}

/// A payload, opened and finished.
pub fn payload(lent: &mut Lent, payload: &[u8], piece: usize) -> Size {
    let palette = standard_palette();
    let mut session = Session::of_payload(lent, &palette);
    pieces(payload, piece).for_each(|bytes| session.feed(&mut lent.canvas, bytes));
    session.finish(&mut lent.canvas, palette)
}

/// A sequence, opened and finished.
pub fn sequence(lent: &mut Lent, sequence: &[u8], piece: usize) -> Size {
    let palette = standard_palette();
    let mut session = Session::of_sequence(lent, &palette);
    pieces(sequence, piece).for_each(|bytes| session.feed(&mut lent.canvas, bytes));
    session.finish(&mut lent.canvas, palette)
}
