//! One case put to the Rust, and its whole answer.
use crate::decoder::{peek_header, peek_part, SixelDcsStreamDecoder, SixelDecoder, SixelStreamDecoder, Standing};
use crate::{DcsSettings, PixelAspectRatio, Result, SixelDcsFeedStatus, SixelError, SixelFeedStatus, SixelImage};

#[derive(Clone, Copy, PartialEq)]
pub enum Entry {
    Payload([Option<u16>; 3]),
    Dcs,
    OneShot,
}

#[derive(Clone)]
pub struct Case {
    /// The registers are the standard ones again before this case; else those that the case before left.
    pub reset: bool,
    pub entry: Entry,
    /// The session is dropped where it would be finished.
    pub abort: bool,
    pub pieces: Vec<Vec<u8>>,
}

#[derive(Clone, Copy, PartialEq, Debug)]
pub enum Status {
    More,
    Ended(u8),
    Complete,
    Cancelled(u8),
    Interrupted(u8),
}

pub struct Answer {
    /// The number of rule 5.1, 0 where nothing was refused.
    pub refusal: u8,
    pub at_finish: bool,
    /// Status and bytes consumed over all calls that were not refused.
    pub status: Status,
    pub consumed: usize,
    /// How many bytes one-shot reading took as payload.
    pub part: usize,
    /// What the canvas shows: the picture, or what came before a refusal or an abort; 0 x 0 before any payload.
    pub size: [usize; 2],
    /// The Rust's largest column and row reached, plus 1 each.
    pub reach: [usize; 2],
    pub pixels: Vec<u8>,
    /// Vertical to horizontal, and whether the background is opaque, of a finished picture; else 0 and false.
    pub ratio: u8,
    pub opaque: bool,
    /// The owner's registers afterwards.
    pub registers: Vec<u8>,
}

/// What the calls of one session came to.
struct Calls {
    status: Status,
    consumed: usize,
    at_finish: bool,
    result: Result<Option<SixelImage>>,
}

pub fn run(decoder: &mut SixelDecoder, case: &Case) -> Answer {
    if case.reset {
        decoder.reset_palette();
    }
    let before = decoder.clone();
    let bytes = case.pieces.concat();
    let calls = match case.entry {
        Entry::Payload([p1, p2, p3]) => {
            let session = decoder.begin_frame(DcsSettings::new(p1, p2, p3)).expect("a frame opens");
            calls(session, case)
        }
        Entry::Dcs => calls(decoder.begin_dcs(), case),
        Entry::OneShot => one_shot(decoder, &bytes),
    };
    let (begun, part) = match case.entry {
        Entry::Payload([p1, p2, p3]) => (Some((DcsSettings::new(p1, p2, p3), &bytes[..])), 0),
        Entry::Dcs => (peek_header(&bytes).map(|(settings, at)| (settings, &bytes[at..])), 0),
        Entry::OneShot => (peek_part(&bytes), peek_part(&bytes).map_or(0, |(_, rest)| rest.len())),
    };
    // A DCS session finished too early refuses before its pending command is looked at.
    let unended = case.entry == Entry::Dcs && calls.status == Status::More;
    let carries_out = !case.abort && !unended;
    let standing = begun.map(|(settings, rest)| before.follow(settings, rest, carries_out));
    answer(calls, standing, part, decoder.registers())
}

fn answer(calls: Calls, standing: Option<Standing>, part: usize, registers: Vec<u8>) -> Answer {
    let inside = standing.as_ref().map_or(0, |standing| standing.refusal);
    let refusal = calls.result.as_ref().err().map_or(0, |error| number(error, inside));
    assert!(refusal != 0 || inside == 0, "both readings refuse or neither does");
    let shown = standing.unwrap_or(Standing { refusal: 0, size: [0, 0], reach: [0, 0], pixels: Vec::new() });
    let (ratio, opaque) = match &calls.result {
        Ok(Some(image)) => {
            assert_eq!((image.width, image.height), (shown.size[0], shown.size[1]));
            assert!(image.pixels == shown.pixels, "byte by byte gives the same picture");
            (vertical(image.aspect_ratio), !image.background_mode.is_transparent())
        }
        _ => (0, false),
    };
    Answer {
        refusal,
        at_finish: calls.at_finish,
        status: calls.status,
        consumed: calls.consumed,
        part,
        size: shown.size,
        reach: shown.reach,
        pixels: shown.pixels,
        ratio,
        opaque,
        registers,
    }
}

/// What both kinds of session can do.
trait Session {
    fn give(&mut self, piece: &[u8]) -> Result<(usize, Status)>;
    fn end(self) -> Result<SixelImage>;
}

impl Session for SixelStreamDecoder<'_> {
    fn give(&mut self, piece: &[u8]) -> Result<(usize, Status)> {
        let progress = self.feed(piece)?;
        let status = match progress.status {
            SixelFeedStatus::NeedMoreData => Status::More,
            SixelFeedStatus::Terminated(byte) => Status::Ended(byte),
        };
        Ok((progress.consumed, status))
    }

    fn end(self) -> Result<SixelImage> {
        self.finish()
    }
}

impl Session for SixelDcsStreamDecoder<'_> {
    fn give(&mut self, piece: &[u8]) -> Result<(usize, Status)> {
        let progress = self.feed(piece)?;
        let status = match progress.status {
            SixelDcsFeedStatus::NeedMoreData => Status::More,
            SixelDcsFeedStatus::Complete => Status::Complete,
            SixelDcsFeedStatus::Cancelled(byte) => Status::Cancelled(byte),
            SixelDcsFeedStatus::Interrupted(byte) => Status::Interrupted(byte),
        };
        Ok((progress.consumed, status))
    }

    fn end(self) -> Result<SixelImage> {
        self.finish()
    }
}

/// Hands the pieces over in turn, until one is refused; then finishes the session or drops it.
fn calls(mut session: impl Session, case: &Case) -> Calls {
    let mut calls = Calls { status: Status::More, consumed: 0, at_finish: false, result: Ok(None) };
    for piece in &case.pieces {
        match session.give(piece) {
            Ok((consumed, status)) => {
                calls.consumed += consumed;
                calls.status = status;
            }
            Err(error) => {
                assert!(has_failed(session), "a refused session refuses all that follows");
                calls.result = Err(error);
                return calls;
            }
        }
    }
    if !case.abort {
        calls.at_finish = true;
        calls.result = session.end().map(Some);
    }
    calls
}

/// Refusal 9, for which the Rust has these words.
fn has_failed(mut session: impl Session) -> bool {
    let tried = [session.give(b"").err(), session.give(b"~").err(), session.end().err()];
    tried.iter().all(|error| error.as_ref().is_some_and(|error| error.to_string().contains("has failed")))
}

fn one_shot(decoder: &mut SixelDecoder, bytes: &[u8]) -> Calls {
    let result = decoder.decode(bytes).map(Some);
    Calls { status: Status::More, consumed: 0, at_finish: false, result }
}

/// The number of rule 5.1 for an error of the Rust; `inside` is the payload's own, where it was reached.
fn number(error: &SixelError, inside: u8) -> u8 {
    let SixelError::InvalidData(words) = error else {
        assert!(matches!(error, SixelError::NoSixelData), "no reading reaches another error");
        return 1;
    };
    match words.as_str() {
        "invalid SIXEL DCS header" => 3,
        "missing SIXEL DCS command" | "incomplete SIXEL DCS sequence" => 8,
        "malformed SIXEL data" if inside == 0 => 2,
        _ => inside,
    }
}

fn vertical(ratio: PixelAspectRatio) -> u8 {
    ratio.pad() as u8
}
