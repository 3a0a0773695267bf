//! Why owned decoding was refused, asked afterwards.
//!
//! Explaining takes some thirty times as long as reading. So the bytes are read once more in pieces, on the canvas that is there,
//! and only the piece that is refused is explained. Where the canvas is too small for that, all bytes are explained as on the
//! largest canvas that the limits allow: no memory is needed for it, and it has room for all that they allow.
use crate::room::Room;
use crate::stream::Session;
use crate::{calls, look, DcsSettings, Limits, Palette, PayloadSession, SixelError, Telling};

const PIECE: usize = 4_096;

/// A session's bytes and its finish; places are of these bytes.
#[cold]
pub fn of_session<S: Session>(error: SixelError, room: &mut Room, palette: &Palette, bytes: &[u8]) -> SixelError {
    let told = error.explained(|| in_pieces::<S>(room, palette, bytes));
    match told.place() {
        Some(_) => told,
        None => error.explained(|| S::explain_all(room.limits(), palette, bytes)),
    }
}

/// Reading all at once; places are of the whole input.
#[cold]
pub fn of_reading(error: SixelError, room: &mut Room, palette: &Palette, data: &[u8]) -> SixelError {
    let payload = look::after_header(data);
    let told = error.explained(|| {
        in_pieces::<PayloadSession>(room, palette, payload).map(|telling| telling.behind(data.len() - payload.len()))
    });
    match told.place() {
        Some(_) => told,
        None => error.explained(|| whole(room.limits(), palette, data)),
    }
}

/// No refusal depends on the settings.
fn in_pieces<S: Session>(room: &mut Room, palette: &Palette, bytes: &[u8]) -> Option<Telling> {
    let (limits, stride, canvas) = (room.limits(), room.stride(), room.canvas());
    let mut session = S::open_on(limits, stride, DcsSettings::default(), canvas, palette).ok()?;
    let mut before = 0;
    for piece in bytes.chunks(PIECE) {
        let asked = session.clone();
        let Ok(fed) = session.feed_all(canvas, piece) else {
            return asked.explain_piece(canvas, piece).map(|telling| telling.behind(before));
        };
        before += fed.consumed;
        if fed.consumed < piece.len() {
            break;
        }
    }
    session.explain_end(canvas).map(|telling| telling.behind(before))
}

/// Stride and length in bytes.
fn largest(limits: Limits) -> (usize, usize) {
    (limits.width, limits.width.saturating_mul(limits.height).saturating_mul(4))
}

fn whole(limits: Limits, palette: &Palette, data: &[u8]) -> Option<Telling> {
    let (stride, length) = largest(limits);
    Telling::of(calls::read_explain(limits, stride, length, &palette.0, data))
}

/// A payload and its finish. Up to its end it has no introducer, and so it is read as a whole. What an end is refused for is the
/// command that it ends, and a finish is refused for that at the same place.
pub fn payload(limits: Limits, palette: &Palette, payload: &[u8]) -> Option<Telling> {
    let end = payload.iter().position(|&byte| look::ends(byte)).unwrap_or(payload.len());
    whole(limits, palette, &payload[..end])
}

/// The bytes of a DCS sequence, and no finish.
pub fn dcs(limits: Limits, palette: &Palette, sequence: &[u8]) -> Option<Telling> {
    let (stride, length) = largest(limits);
    let memory = calls::dcs_open(limits, stride, length, &palette.0).ok()?;
    Telling::of(calls::dcs_explain(&memory, length, sequence, usize::MAX))
}
