//! The streaming decoders, each a session for a decoder that owns the palette.
use crate::stream::Stream;
use crate::{DcsSession, DcsSettings, DcsStatus, PayloadSession, PayloadStatus, Result, SixelDecoder, SixelImage};

/// How a piece of a payload ended.
#[derive(Clone, Copy, Debug, PartialEq, Eq)]
pub enum SixelFeedStatus {
    /// All bytes were consumed, and a command may be pending.
    NeedMoreData,
    /// This byte ended the payload and is not consumed.
    Terminated(u8),
}

/// What one feed of a payload did.
#[derive(Clone, Copy, Debug, PartialEq, Eq)]
#[must_use]
pub struct SixelFeedResult {
    /// Bytes consumed of those that were given.
    pub consumed: usize,
    /// How the piece ended.
    pub status: SixelFeedStatus,
}

/// How a piece of a DCS sequence ended.
#[derive(Clone, Copy, Debug, PartialEq, Eq)]
pub enum SixelDcsFeedStatus {
    /// All bytes were consumed, and the sequence goes on.
    NeedMoreData,
    /// The sequence's own end was consumed: 9C, or 1B and `\`.
    Complete,
    /// 18 or 1A was consumed.
    Cancelled(u8),
    /// 1B, which is consumed, and a byte after it that is not; or a C1 byte, which is not.
    Interrupted(u8),
}

/// What one feed of a DCS sequence did.
#[derive(Clone, Copy, Debug, PartialEq, Eq)]
#[must_use]
pub struct SixelDcsFeedResult {
    /// Bytes consumed of those that were given.
    pub consumed: usize,
    /// How the piece ended.
    pub status: SixelDcsFeedStatus,
}

/// Reads one payload as a stream, in pieces of any size, for a decoder that owns the palette.
///
/// Dropping it, aborting it and every error leave the decoder's palette as it was.
///
/// ```
/// use owlgantry::{DcsSettings, SixelDecoder, SixelFeedStatus};
/// let mut decoder = SixelDecoder::new();
/// let mut frame = decoder.begin_frame(DcsSettings::default())?;
/// assert_eq!(frame.feed(b"#1;2;100;0;0!1")?.status, SixelFeedStatus::NeedMoreData);
/// let fed = frame.feed(b"2~\x1b\\more")?;
/// assert_eq!((fed.consumed, fed.status), (2, SixelFeedStatus::Terminated(0x1b)));
/// assert_eq!(frame.finish()?.dimensions(), (12, 6));
/// # Ok::<(), owlgantry::SixelError>(())
/// ```
#[must_use = "finish it to have an image"]
pub struct SixelStreamDecoder<'a> {
    decoder: &'a mut SixelDecoder,
    stream: Stream<PayloadSession>,
}

impl<'a> SixelStreamDecoder<'a> {
    pub(crate) fn new(decoder: &'a mut SixelDecoder, settings: DcsSettings) -> Result<Self> {
        let stream = Stream::open(decoder.limits(), settings, decoder.palette())?;
        Ok(Self { decoder, stream })
    }

    /// Reads a piece; after the payload's end it consumes nothing and repeats the end.
    pub fn feed(&mut self, bytes: &[u8]) -> Result<SixelFeedResult> {
        let fed = self.stream.feed(bytes, self.decoder.palette())?;
        let status = match fed.status {
            PayloadStatus::Ended(byte) => SixelFeedStatus::Terminated(byte),
            PayloadStatus::AllRead | PayloadStatus::StoppedForInk => SixelFeedStatus::NeedMoreData,
        };
        Ok(SixelFeedResult { consumed: fed.consumed, status })
    }

    /// Carries a pending command out and hands the image over, with or without an end. The palette becomes the decoder's.
    pub fn finish(self) -> Result<SixelImage> {
        self.stream.finish(self.decoder.palette_mut())
    }

    /// Drops the session.
    pub fn abort(self) {}
}

/// Reads one whole DCS sequence as a stream, in pieces of any size, for a decoder that owns the palette.
///
/// Dropping it, aborting it and every error leave the decoder's palette as it was. Where the decoder's limits are out of
/// their range, or there is no memory for a canvas, every call says so.
///
/// ```
/// use owlgantry::{SixelDcsFeedStatus, SixelDecoder};
/// let mut decoder = SixelDecoder::new();
/// let mut dcs = decoder.begin_dcs();
/// assert_eq!(dcs.feed(b"\x1bP9;1q#1;2;100;0;0!12~\x1b")?.status, SixelDcsFeedStatus::NeedMoreData);
/// let fed = dcs.feed(b"\\more")?;
/// assert_eq!((fed.consumed, fed.status), (1, SixelDcsFeedStatus::Complete));
/// assert_eq!(dcs.finish()?.dimensions(), (12, 6));
/// # Ok::<(), owlgantry::SixelError>(())
/// ```
#[must_use = "finish it to have an image"]
pub struct SixelDcsStreamDecoder<'a> {
    decoder: &'a mut SixelDecoder,
    stream: Result<Stream<DcsSession>>,
}

impl<'a> SixelDcsStreamDecoder<'a> {
    pub(crate) fn new(decoder: &'a mut SixelDecoder) -> Self {
        let stream = Stream::open(decoder.limits(), DcsSettings::default(), decoder.palette());
        Self { decoder, stream }
    }

    /// Reads a piece; after the sequence's end it consumes nothing and repeats the end.
    pub fn feed(&mut self, bytes: &[u8]) -> Result<SixelDcsFeedResult> {
        let fed = self.stream.as_mut().map_err(|error| *error)?.feed(bytes, self.decoder.palette())?;
        let status = match fed.status {
            DcsStatus::AllRead | DcsStatus::StoppedForInk => SixelDcsFeedStatus::NeedMoreData,
            DcsStatus::Complete => SixelDcsFeedStatus::Complete,
            DcsStatus::Cancelled(byte) => SixelDcsFeedStatus::Cancelled(byte),
            DcsStatus::Interrupted(byte) => SixelDcsFeedStatus::Interrupted(byte),
        };
        Ok(SixelDcsFeedResult { consumed: fed.consumed, status })
    }

    /// Hands the image over after any end; before it this is refusal 8. The palette becomes the decoder's.
    pub fn finish(self) -> Result<SixelImage> {
        self.stream?.finish(self.decoder.palette_mut())
    }

    /// Drops the session.
    pub fn abort(self) {}
}
