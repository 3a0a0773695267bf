//! Reading on a canvas that the caller lends: four bytes a pixel, rows of `stride` pixels. Nothing is allocated.
use crate::calls;
use crate::{BackgroundMode, DcsSettings, Limits, Palette, PixelAspectRatio, Refusal, Telling};
use std::ops::Range;

/// What one feed did.
#[derive(Clone, Copy, Debug, PartialEq, Eq)]
#[must_use]
pub struct Fed<Status> {
    /// How it ended.
    pub status: Status,
    /// Bytes consumed of those that were given.
    pub consumed: usize,
    /// Pixels painted, each as often as a sixel painted it.
    pub ink: u64,
}

/// How a feed of a payload ended.
#[derive(Clone, Copy, Debug, PartialEq, Eq)]
pub enum PayloadStatus {
    /// All bytes were read.
    AllRead,
    /// The next sixel's ink exceeds what is left of the allowance: give the unread bytes again.
    StoppedForInk,
    /// This byte ends the payload and stays unread; further feeds say the same.
    Ended(u8),
}

/// How a feed of a DCS sequence ended.
#[derive(Clone, Copy, Debug, PartialEq, Eq)]
pub enum DcsStatus {
    /// All bytes were read.
    AllRead,
    /// The next sixel's ink exceeds what is left of the allowance: give the unread bytes again.
    StoppedForInk,
    /// By 9C, or 1B and `\`, consumed.
    Complete,
    /// By 18 or 1A, consumed.
    Cancelled(u8),
    /// By 1B, consumed, with another byte after it that is not; or by a C1 byte, which is not.
    Interrupted(u8),
}

/// Which number says how tall a pixel is.
#[derive(Clone, Copy, Debug, PartialEq, Eq)]
pub enum Ratio {
    /// P1's, where there is one.
    LeftToP1(Option<u16>),
    /// The raster's: so many to 1, vertical to horizontal.
    Raster(u8),
}

/// What a finished picture is like. It stands in the canvas's upper left corner.
#[derive(Clone, Copy, Debug, PartialEq, Eq)]
pub struct Picture {
    /// Width in pixels.
    pub width: usize,
    /// Height in pixels.
    pub height: usize,
    /// The extent's columns: one past the last that holds a painted pixel, or 0 where nothing was painted (rule 4.4).
    pub right: usize,
    /// The extent's rows: one past the last that holds a painted pixel, or 0.
    pub bottom: usize,
    /// Where the ratio comes from.
    pub ratio: Ratio,
    /// What P2 said.
    pub background_mode: BackgroundMode,
    /// How many registers the picture's colour commands defined, each counted once, whichever were marked before (rule 9.9).
    pub defined: usize,
    /// The width that the sender declared by raster commands, or 0 where it declared none (rule 4.7). It is never above `width`.
    pub declared_width: usize,
    /// The height that it declared, or 0. A sixel is six rows, so that a picture may be up to five rows taller than it was drawn:
    /// this says how tall it was meant to be.
    pub declared_height: usize,
    /// How many of its colour definitions had at least one value outside 0 to 100, which was held to 0 or 100 (rule 9.10). A sender
    /// that takes bytes for percents is told by it; nothing is refused for it.
    pub held: u64,
}

impl Picture {
    fn of_report(report: [u64; 11]) -> Self {
        let [width, height, right, bottom, kind, number, transparent, defined, wide, high, held] = report;
        let ratio = match kind {
            0 => Ratio::LeftToP1(None),
            1 => Ratio::LeftToP1(Some(number as u16)),
            _ => Ratio::Raster(number as u8),
        };
        let background_mode = if transparent == 1 { BackgroundMode::Transparent } else { BackgroundMode::Opaque };
        let [width, height, right, bottom, defined, declared_width, declared_height] =
            [width, height, right, bottom, defined, wide, high].map(|number| number as usize);
        Self { width, height, right, bottom, ratio, background_mode, defined, declared_width, declared_height, held }
    }

    /// The ratio: the raster's, else what P1 means, else square.
    pub fn aspect_ratio(&self) -> PixelAspectRatio {
        match self.ratio {
            Ratio::Raster(5) => PixelAspectRatio::Ratio5To1,
            Ratio::Raster(3) => PixelAspectRatio::Ratio3To1,
            Ratio::Raster(2) => PixelAspectRatio::Ratio2To1,
            Ratio::Raster(_) | Ratio::LeftToP1(None) => PixelAspectRatio::Square,
            Ratio::LeftToP1(Some(p1)) => PixelAspectRatio::from_p1(p1),
        }
    }
}

/// A session for a payload, without its DCS header. Every call is lent the same canvas.
#[derive(Clone)]
#[must_use]
pub struct PayloadSession(calls::Memory);

impl PayloadSession {
    /// Opens a session and gives pixel (0, 0) the background.
    pub fn open(
        limits: Limits,
        stride: usize,
        settings: DcsSettings,
        canvas: &mut [u8],
        palette: &Palette,
    ) -> Result<Self, Refusal> {
        match calls::payload_open(limits, stride, settings.numbers(), canvas, &palette.0) {
            Ok(memory) => Ok(Self(memory)),
            Err(answer) => Err(Refusal::numbered(answer)),
        }
    }

    /// Reads bytes until all are read, the payload ends, a sixel's ink exceeds the allowance, or a refusal.
    ///
    /// Refusals 4 to 7 fail the session; 9, 12 and 13 leave it as it was. The allowance is at least
    /// [`Limits::least_allowance`]. Where a feed is refused, [`Self::explain`] on a clone from before says.
    pub fn feed(&mut self, canvas: &mut [u8], bytes: &[u8], allowance: usize) -> Result<Fed<PayloadStatus>, Refusal> {
        let (answer, [how, consumed, ink, byte]) = calls::payload_feed(&mut self.0, canvas, bytes, allowance);
        let status = match how {
            0 => PayloadStatus::AllRead,
            1 => PayloadStatus::StoppedForInk,
            _ => PayloadStatus::Ended(byte as u8),
        };
        Refusal::judge(answer).map(|()| Fed { status, consumed: consumed as usize, ink })
    }

    /// Carries a pending command out. The palette becomes the picture's, colours and marks; after a refusal it is as it was.
    pub fn finish(mut self, canvas: &mut [u8], palette: &mut Palette) -> Result<Picture, Refusal> {
        let (answer, report) = calls::payload_finish(&mut self.0, canvas, &mut palette.0);
        Refusal::judge(answer).map(|()| Picture::of_report(report))
    }

    /// Where and why a feed would be refused, or none where it would not. The bytes are read without painting and the session
    /// stays as it is; of the canvas only the length counts. The place is counted from the first of these bytes.
    ///
    /// A session that was refused knows nothing of its bytes any more: whoever wants its refusals explained clones it before a
    /// feed. Explaining goes byte by byte and takes many times as long as reading, so it is for the one call that was refused.
    ///
    /// ```
    /// use owlgantry::{DcsSettings, Limits, Palette, PayloadSession};
    /// let (limits, mut canvas) = (Limits::HOUSE, vec![0; 4 * 100 * 100]);
    /// let palette = Palette::standard();
    /// let mut session = PayloadSession::open(limits, 100, DcsSettings::default(), &mut canvas, &palette)?;
    /// let (before, bytes) = (session.clone(), b"#1!90~!20~");
    /// if session.feed(&mut canvas, bytes, limits.least_allowance()).is_err() {
    ///     let telling = before.explain(&canvas, bytes, limits.least_allowance()).expect("it was refused");
    ///     assert_eq!(telling.to_string(), "refused 7 at byte 9: 110 columns are needed, the canvas has 100");
    /// }
    /// # Ok::<(), owlgantry::Refusal>(())
    /// ```
    pub fn explain(&self, canvas: &[u8], bytes: &[u8], allowance: usize) -> Option<Telling> {
        Telling::of(calls::payload_explain(&self.0, canvas.len(), bytes, allowance))
    }

    /// Where and why a finish would be refused, or none where it would not. Its place is 0: the end of what was fed.
    pub fn explain_finish(&self, canvas: &[u8]) -> Option<Telling> {
        Telling::of(calls::payload_explain_finish(&self.0, canvas.len()))
    }

    /// Drops the session and what it did to the palette.
    pub fn abort(self) {}
}

/// A session for a whole DCS sequence: introducer, header, payload and end. Every call is lent the same canvas.
#[derive(Clone)]
#[must_use]
pub struct DcsSession(calls::Memory);

impl DcsSession {
    /// Opens a session for a canvas of a length, to which nothing is written before `q`.
    pub fn open(limits: Limits, stride: usize, length: usize, palette: &Palette) -> Result<Self, Refusal> {
        match calls::dcs_open(limits, stride, length, &palette.0) {
            Ok(memory) => Ok(Self(memory)),
            Err(answer) => Err(Refusal::numbered(answer)),
        }
    }

    /// As [`PayloadSession::feed`], with introducer, header and ends.
    pub fn feed(&mut self, canvas: &mut [u8], bytes: &[u8], allowance: usize) -> Result<Fed<DcsStatus>, Refusal> {
        let (answer, [how, consumed, ink, byte]) = calls::dcs_feed(&mut self.0, canvas, bytes, allowance);
        let status = match how {
            0 => DcsStatus::AllRead,
            1 => DcsStatus::StoppedForInk,
            2 => DcsStatus::Complete,
            3 => DcsStatus::Cancelled(byte as u8),
            _ => DcsStatus::Interrupted(byte as u8),
        };
        Refusal::judge(answer).map(|()| Fed { status, consumed: consumed as usize, ink })
    }

    /// As [`PayloadSession::finish`], at an end; before it the answer is refusal 8.
    pub fn finish(mut self, canvas: &mut [u8], palette: &mut Palette) -> Result<Picture, Refusal> {
        let (answer, report) = calls::dcs_finish(&mut self.0, canvas, &mut palette.0);
        Refusal::judge(answer).map(|()| Picture::of_report(report))
    }

    /// As [`PayloadSession::explain`].
    pub fn explain(&self, canvas: &[u8], bytes: &[u8], allowance: usize) -> Option<Telling> {
        Telling::of(calls::dcs_explain(&self.0, canvas.len(), bytes, allowance))
    }

    /// As [`PayloadSession::explain_finish`].
    pub fn explain_finish(&self, canvas: &[u8]) -> Option<Telling> {
        Telling::of(calls::dcs_explain_finish(&self.0, canvas.len()))
    }

    /// Drops the session and what it did to the palette.
    pub fn abort(self) {}
}

/// What reading all at once came to.
#[derive(Clone, Debug, PartialEq, Eq)]
pub struct Reading {
    /// The picture, or why there is none.
    pub picture: Result<Picture, Refusal>,
    /// Where the payload stands among the bytes; empty on refusals 2, 3, 8 and 11.
    pub payload: Range<usize>,
}

/// Reads all at once: the payload after the first DCS header, or all bytes where there is no introducer. The palette
/// becomes the picture's; after a refusal it is as it was.
pub fn read(limits: Limits, stride: usize, canvas: &mut [u8], bytes: &[u8], palette: &mut Palette) -> Reading {
    let (answer, report) = calls::read(limits, stride, canvas, bytes, &mut palette.0);
    let [numbers @ .., place, length] = report;
    let payload = place as usize..(place + length) as usize;
    Reading { picture: Refusal::judge(answer).map(|()| Picture::of_report(numbers)), payload }
}

/// Where and why [`read`] is refused with the same arguments, or none where it is not. The place is counted from the first of
/// the bytes, whatever stands before the introducer. Of the canvas only the length counts.
pub fn explain_read(limits: Limits, stride: usize, canvas: &[u8], bytes: &[u8], palette: &Palette) -> Option<Telling> {
    Telling::of(calls::read_explain(limits, stride, canvas.len(), &palette.0, bytes))
}

/// Copies a picture's rows, tightly packed, to the front of `out`, whose later bytes stay.
pub fn copy(canvas: &[u8], stride: usize, width: usize, height: usize, out: &mut [u8]) -> Result<(), Refusal> {
    Refusal::judge(calls::copy(canvas, stride, width, height, out))
}
