//! A session on a canvas of its own.
use crate::room::Room;
use crate::{
    explain, look, DcsSession, DcsSettings, DcsStatus, Fed, Limits, Palette, PayloadSession, PayloadStatus, Picture,
    Refusal, Result, SixelError, SixelImage, Telling,
};

type Judged<T> = std::result::Result<T, Refusal>;

/// Both kinds of session, with the largest allowance there is.
pub trait Session: Clone {
    type Status;
    fn open_on(
        limits: Limits,
        stride: usize,
        settings: DcsSettings,
        canvas: &mut [u8],
        palette: &Palette,
    ) -> Judged<Self>;
    /// Whether it stopped for ink, and what it did.
    fn feed_some(&mut self, canvas: &mut [u8], bytes: &[u8]) -> Judged<(bool, Fed<Self::Status>)>;
    fn end(self, canvas: &mut [u8], palette: &mut Palette) -> Judged<Picture>;
    /// The part of what it has read that is payload.
    fn payload(bytes: &[u8]) -> &[u8];
    /// What a feed of these bytes is refused with, and what a finish is.
    fn explain_piece(&self, canvas: &[u8], bytes: &[u8]) -> Option<Telling>;
    fn explain_end(&self, canvas: &[u8]) -> Option<Telling>;
    /// What all its bytes are refused with, by the limits alone.
    fn explain_all(limits: Limits, palette: &Palette, bytes: &[u8]) -> Option<Telling>;

    /// A stop comes only where the ink would pass what a number can hold.
    fn feed_all(&mut self, canvas: &mut [u8], bytes: &[u8]) -> Judged<Fed<Self::Status>> {
        let mut before = 0;
        loop {
            let (stopped, fed) = self.feed_some(canvas, &bytes[before..])?;
            before += fed.consumed;
            if !stopped {
                return Ok(Fed { consumed: before, ..fed });
            }
        }
    }
}

impl Session for PayloadSession {
    type Status = PayloadStatus;

    fn open_on(
        limits: Limits,
        stride: usize,
        settings: DcsSettings,
        canvas: &mut [u8],
        palette: &Palette,
    ) -> Judged<Self> {
        Self::open(limits, stride, settings, canvas, palette)
    }

    fn feed_some(&mut self, canvas: &mut [u8], bytes: &[u8]) -> Judged<(bool, Fed<PayloadStatus>)> {
        let fed = self.feed(canvas, bytes, usize::MAX)?;
        Ok((fed.status == PayloadStatus::StoppedForInk, fed))
    }

    fn end(self, canvas: &mut [u8], palette: &mut Palette) -> Judged<Picture> {
        self.finish(canvas, palette)
    }

    fn payload(bytes: &[u8]) -> &[u8] {
        bytes
    }

    fn explain_piece(&self, canvas: &[u8], bytes: &[u8]) -> Option<Telling> {
        self.explain(canvas, bytes, usize::MAX)
    }

    fn explain_end(&self, canvas: &[u8]) -> Option<Telling> {
        self.explain_finish(canvas)
    }

    fn explain_all(limits: Limits, palette: &Palette, bytes: &[u8]) -> Option<Telling> {
        explain::payload(limits, palette, bytes)
    }
}

impl Session for DcsSession {
    type Status = DcsStatus;

    fn open_on(limits: Limits, stride: usize, _: DcsSettings, canvas: &mut [u8], palette: &Palette) -> Judged<Self> {
        Self::open(limits, stride, canvas.len(), palette)
    }

    fn feed_some(&mut self, canvas: &mut [u8], bytes: &[u8]) -> Judged<(bool, Fed<DcsStatus>)> {
        let fed = self.feed(canvas, bytes, usize::MAX)?;
        Ok((fed.status == DcsStatus::StoppedForInk, fed))
    }

    fn end(self, canvas: &mut [u8], palette: &mut Palette) -> Judged<Picture> {
        self.finish(canvas, palette)
    }

    fn payload(bytes: &[u8]) -> &[u8] {
        look::after_header(bytes)
    }

    fn explain_piece(&self, canvas: &[u8], bytes: &[u8]) -> Option<Telling> {
        self.explain(canvas, bytes, usize::MAX)
    }

    fn explain_end(&self, canvas: &[u8]) -> Option<Telling> {
        self.explain_finish(canvas)
    }

    fn explain_all(limits: Limits, palette: &Palette, bytes: &[u8]) -> Option<Telling> {
        explain::dcs(limits, palette, bytes)
    }
}

/// A session and its canvas.
pub struct Stream<S> {
    settings: DcsSettings,
    room: Room,
    session: S,
    /// A buffer of the bytes that it has read, which are read again on a larger canvas. There is none once the canvas has
    /// room for whatever the limits allow.
    kept: Option<Vec<u8>>,
}

impl<S: Session> Stream<S> {
    pub fn open(limits: Limits, settings: DcsSettings, palette: &Palette) -> Result<Self> {
        let mut room = Room::for_stream(limits)?;
        let session = S::open_on(limits, room.stride(), settings, room.canvas(), palette)?;
        let kept = room.may_retry().then(Vec::new);
        Ok(Self { settings, room, session, kept })
    }

    pub fn feed(&mut self, bytes: &[u8], palette: &Palette) -> Result<Fed<S::Status>> {
        let Some(kept) = &mut self.kept else {
            return Ok(self.session.feed_all(self.room.canvas(), bytes)?);
        };
        // Before anything is read: else a larger canvas would miss these bytes.
        kept.try_reserve(bytes.len()).map_err(|_| SixelError::OutOfMemory)?;
        match self.session.feed_all(self.room.canvas(), bytes) {
            Ok(fed) => {
                kept.extend_from_slice(&bytes[..fed.consumed]);
                Ok(fed)
            }
            Err(Refusal::Room) => self.feed_again(bytes, palette),
            Err(refusal) => {
                kept.extend_from_slice(bytes);
                Err(self.explain(refusal.into(), palette))
            }
        }
    }

    /// Reads everything, and these bytes, on a larger canvas.
    #[cold]
    fn feed_again(&mut self, bytes: &[u8], palette: &Palette) -> Result<Fed<S::Status>> {
        let Self { settings, room, session, kept } = self;
        let Some(all) = kept else { return Err(Refusal::Room.into()) };
        let before = all.len();
        all.extend_from_slice(bytes);
        let answer = room.retry(S::payload(all), |limits, stride, canvas| {
            let mut larger = S::open_on(limits, stride, *settings, canvas, palette)?;
            let fed = larger.feed_all(canvas, all)?;
            Ok((larger, fed))
        });
        let (larger, fed) = match answer {
            Ok(answer) => answer,
            Err(error) => return Err(self.explain(error, palette)),
        };
        *session = larger;
        all.truncate(fed.consumed);
        if !room.may_retry() {
            *kept = None;
        }
        Ok(Fed { consumed: fed.consumed - before, ..fed })
    }

    /// A failed stream keeps its bytes no longer than to say where it failed.
    #[cold]
    fn explain(&mut self, error: SixelError, palette: &Palette) -> SixelError {
        let all = self.kept.take().unwrap_or_default();
        explain::of_session::<S>(error, &mut self.room, palette, &all)
    }

    pub fn finish(self, palette: &mut Palette) -> Result<SixelImage> {
        let Self { settings, mut room, session, kept } = self;
        let answer = match (session.end(room.canvas(), palette), &kept) {
            (Err(Refusal::Room), Some(all)) => room.retry(S::payload(all), |limits, stride, canvas| {
                let mut larger = S::open_on(limits, stride, settings, canvas, palette)?;
                let _ = larger.feed_all(canvas, all)?;
                larger.end(canvas, palette)
            }),
            (answer, _) => answer.map_err(SixelError::from),
        };
        match (answer, kept) {
            (Ok(picture), _) => Ok(room.image(picture)),
            (Err(error), Some(all)) => Err(explain::of_session::<S>(error, &mut room, palette, &all)),
            (Err(error), None) => Err(error),
        }
    }
}
