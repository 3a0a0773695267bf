use crate::room::Room;
use crate::stream::Session;
use crate::{
    explain, look, read, DcsSettings, Limits, Palette, PayloadSession, Reading, Result, SixelDcsStreamDecoder,
    SixelImage, SixelStreamDecoder,
};

/// Owns limits and a palette, and decodes pictures one after another.
///
/// What is allocated: a canvas, which becomes the image. A picture that outgrows it is read again from its first byte on a
/// larger one. No canvas has twice as many pixels as the limits allow, but for a first one of 64 x 6. A canvas that can't be
/// had is [`SixelError::OutOfMemory`](crate::SixelError::OutOfMemory).
///
/// - [`Self::decode`] and [`Self::decode_from_dcs`] have all bytes before them and look ahead: at the raster where one
///   stands before the sixels, else at the first bands and how many there are. So nearly every picture is allocated once,
///   in its own size. Where the look was too small, a second one goes through every command.
/// - A streaming decoder starts with a canvas of the limits' size where they allow at most 1,048,576 pixels (width x
///   height). Else it starts with 64 x 6. A picture that outgrows this gets the size that its bytes up to there need, and
///   at least twice the width or four times the height, whichever was too small. For that the bytes that it has read are
///   buffered. Its finish moves the rows together and gives back what is left of the canvas.
///
/// [`Self::decode_onto`] allocates nothing.
///
/// A refusal comes with its place, counted from the first byte of the input or of the stream, however it was cut, and with
/// what the refused byte needed ([`SixelError::telling`](crate::SixelError::telling)). The bytes are read again for that. A
/// streaming decoder has them only while it buffers them: where it starts with a canvas of the limits' size, a refusal has
/// neither. A session on a canvas that is lent can be asked there ([`DcsSession::explain`](crate::DcsSession::explain)).
#[derive(Clone, Debug)]
pub struct SixelDecoder {
    limits: Limits,
    palette: Palette,
}

impl Default for SixelDecoder {
    fn default() -> Self {
        Self::new()
    }
}

impl SixelDecoder {
    /// The standard palette under icy_sixel's limits, [`Limits::CRATE`].
    pub fn new() -> Self {
        Self::with_limits(Limits::CRATE)
    }

    /// The standard palette under other limits. Where a limit is out of its range, every reading is refused with 11.
    pub fn with_limits(limits: Limits) -> Self {
        Self { limits, palette: Palette::standard() }
    }

    /// The limits.
    pub fn limits(&self) -> Limits {
        self.limits
    }

    /// The palette that the last finished picture left.
    pub fn palette(&self) -> &Palette {
        &self.palette
    }

    /// The palette that the next picture starts from.
    pub fn palette_mut(&mut self) -> &mut Palette {
        &mut self.palette
    }

    /// Makes all registers the standard ones again, none of them marked.
    pub fn reset_palette(&mut self) {
        self.palette = Palette::standard();
    }

    /// Reads a DCS sequence, wherever it stands in the bytes; bytes without an introducer are a payload.
    pub fn decode(&mut self, data: &[u8]) -> Result<SixelImage> {
        let Self { limits, palette } = self;
        let payload = look::after_header(data);
        let mut room = Room::for_payload(*limits, payload)?;
        match room.read(payload, |limits, stride, canvas| read(limits, stride, canvas, data, palette).picture) {
            Ok(picture) => Ok(room.image(picture)),
            Err(error) => Err(explain::of_reading(error, &mut room, palette, data)),
        }
    }

    /// Reads a payload whose header was read by somebody else.
    pub fn decode_from_dcs(&mut self, payload: &[u8], settings: DcsSettings) -> Result<SixelImage> {
        let Self { limits, palette } = self;
        let mut room = Room::for_payload(*limits, payload)?;
        let answer = room.read(payload, |limits, stride, canvas| {
            let mut session = PayloadSession::open(limits, stride, settings, canvas, palette)?;
            let _ = session.feed_all(canvas, payload)?;
            session.finish(canvas, palette)
        });
        match answer {
            Ok(picture) => Ok(room.image(picture)),
            Err(error) => Err(explain::of_session::<PayloadSession>(error, &mut room, palette, payload)),
        }
    }

    /// Reads as [`Self::decode`] does, onto a canvas that is lent, and allocates nothing.
    pub fn decode_onto(&mut self, data: &[u8], canvas: &mut [u8], stride: usize) -> Reading {
        read(self.limits, stride, canvas, data, &mut self.palette)
    }

    /// Starts a payload whose header was read by somebody else.
    pub fn begin_frame(&mut self, settings: DcsSettings) -> Result<SixelStreamDecoder<'_>> {
        SixelStreamDecoder::new(self, settings)
    }

    /// Starts a DCS sequence, of which the first byte is 1B or 90.
    pub fn begin_dcs(&mut self) -> SixelDcsStreamDecoder<'_> {
        SixelDcsStreamDecoder::new(self)
    }
}
